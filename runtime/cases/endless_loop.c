#include "vault_rt.h"
#define VR_MAIN f0
void f0 ( void ) ;
void f0 ( void ) {
vr_ref p0 ;
while ( 1 ) {
p0 = vr_new ( 3 , 2 ) ;
vr_release ( p0 ) ;
}
}
