#include "vault_rt.h"
#define VR_MAIN f0
void f0 ( void ) ;
void f0 ( void ) {
vr_ref p0 ;
vr_ref p1 ;
p0 = vr_new ( 0 , 0 ) ;
p1 = vr_parent ( p0 ) ;
return ;
}
