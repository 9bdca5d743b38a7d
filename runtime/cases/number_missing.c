#include "vault_rt.h"
#define VR_MAIN f0
void f0 ( void ) ;
void f0 ( void ) {
long long n0 ;
vr_call ( "f" ) ;
vr_ask ( ) ;
vr_int ( ) ;
vr_int ( ) ;
n0 = vr_int ( ) ;
return ;
}
