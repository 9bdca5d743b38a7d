#include "vault_rt.h"
#define VR_MAIN f0
void f0 ( void ) ;
void f0 ( void ) {
vr_ref p0 ;
vr_ref p1 ;
vr_call ( "f" ) ;
vr_ask ( ) ;
vr_int ( ) ;
vr_int ( ) ;
vr_end ( ) ;
p0 = vr_new ( 0 , 0 ) ;
vr_release ( p0 ) ;
p1 = vr_new ( 0 , 0 ) ;
vr_call ( "told" ) ;
vr_arg_p ( p0 ) ;
vr_arg_p ( p1 ) ;
vr_ask ( ) ;
return ;
}
