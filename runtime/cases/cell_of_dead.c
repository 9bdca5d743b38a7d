#include "vault_rt.h"
#define VR_MAIN f0
void f0 ( void ) ;
void f0 ( void ) {
long long n0 ;
vr_ref p0 ;
p0 = vr_new ( 1 , 0 ) ;
p0 -> n [ 0 ] = 7 ;
vr_release ( p0 ) ;
n0 = p0 -> n [ 0 ] ;
return ;
}
