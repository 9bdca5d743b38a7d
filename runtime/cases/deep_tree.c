#include "vault_rt.h"
#define VR_MAIN f0
void f0 ( void ) ;
void f0 ( void ) {
long long n0 ;
vr_ref p0 ;
vr_ref p1 ;
n0 = 0 ;
p0 = vr_new ( 0 , 0 ) ;
while ( 1 ) {
if ( ( n0 == 60000 ) ) {
break ;
}
p1 = vr_new ( 1 , 1 ) ;
vr_own ( p0 , p1 ) ;
p0 = p1 ;
n0 = ( n0 + 1 ) ;
}
vr_release ( p0 ) ;
vr_print ( n0 ) ;
}
