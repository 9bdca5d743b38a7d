#include "vault_rt.h"
#define VR_MAIN f0
void f0 ( void ) ;
void f0 ( void ) {
vr_put_n ( 7 , 1 ) ;
vr_put_n ( 8 , 1 ) ;
return ;
}
