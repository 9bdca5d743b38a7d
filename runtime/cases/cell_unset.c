#include "vault_rt.h"
#define VR_MAIN f0
void f0 ( void ) ;
void f0 ( void ) {
long long n0 ;
vr_ref p0 ;
p0 = vr_new ( 2 , 0 ) ;
p0 -> n [ 0 ] = 7 ;
n0 = p0 -> n [ 0 ] ;
vr_print ( n0 ) ;
n0 = p0 -> n [ 1 ] ;
return ;
}
