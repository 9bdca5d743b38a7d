#include "vault_rt.h"
#define VR_MAIN f0
void f0 ( void ) ;
void f0 ( void ) {
long long n0 ;
long long n1 ;
vr_ref p0 ;
p0 = vr_new ( 2 , 0 ) ;
p0 -> n [ 0 ] = 4 ;
p0 -> n [ 1 ] = 2 ;
n0 = p0 -> n [ 0 ] ;
n1 = p0 -> n [ 1 ] ;
n0 = ( n0 + n1 ) ;
vr_print ( n0 ) ;
vr_release ( p0 ) ;
return ;
}
