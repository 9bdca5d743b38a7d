#include "vault_rt.h"
#define VR_MAIN f0
void f0 ( void ) ;
void f0 ( void ) {
vr_ref p0 ;
p0 = vr_null ;
vr_put_p ( 15 , p0 ) ;
p0 = vr_get_p ( 15 ) ;
p0 = vr_get_p ( 14 ) ;
return ;
}
