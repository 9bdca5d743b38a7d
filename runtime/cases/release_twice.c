#include "vault_rt.h"
#define VR_MAIN f0
void f0 ( void ) ;
void f0 ( void ) {
vr_ref p0 ;
p0 = vr_new ( 0 , 0 ) ;
vr_release ( p0 ) ;
vr_release ( vr_null ) ;
vr_release ( p0 ) ;
return ;
}
