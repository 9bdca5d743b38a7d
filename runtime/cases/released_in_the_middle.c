#include "vault_rt.h"
#define VR_MAIN f0
void f0 ( void ) ;
void f0 ( void ) {
vr_ref p0 ;
vr_ref p1 ;
vr_ref p2 ;
vr_ref p3 ;
p0 = vr_new ( 0 , 0 ) ;
p1 = vr_new ( 0 , 0 ) ;
p2 = vr_new ( 0 , 0 ) ;
p3 = vr_new ( 0 , 0 ) ;
vr_own ( p1 , p0 ) ;
vr_own ( p2 , p0 ) ;
vr_own ( p3 , p0 ) ;
vr_disown ( p2 ) ;
vr_disown ( p1 ) ;
vr_own ( p1 , p0 ) ;
vr_release ( p0 ) ;
vr_release ( p2 ) ;
vr_release ( p3 ) ;
return ;
}
