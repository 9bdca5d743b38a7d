#include "vault_rt.h"
#define VR_MAIN f0
void f0 ( void ) ;
void f0 ( void ) {
vr_ref p0 ;
vr_ref p1 ;
p0 = vr_new ( 1 , 1 ) ;
p0 -> n [ 0 ] = 7 ;
p1 = p0 -> r [ 0 ] ;
return ;
}
