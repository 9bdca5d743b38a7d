#include "vault_rt.h"
#define VR_MAIN f0
void f0 ( void ) ;
void f0 ( void ) {
vr_call ( "f" ) ;
vr_arg_p ( vr_null ) ;
return ;
}
