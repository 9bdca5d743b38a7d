#include "vault_rt.h"
#define VR_MAIN f0
void f0 ( void ) ;
void f0 ( void ) {
long long n0 ;
long long n1 ;
vr_call ( "f" ) ;
vr_ask ( ) ;
n0 = vr_int ( ) ;
n0 = vr_int ( ) ;
vr_end ( ) ;
n1 = ( ( - 9223372036854775807 ) - 1 ) ;
vr_call ( "g" ) ;
vr_ask ( ) ;
n0 = vr_pick ( n1 ) ;
vr_print ( n0 ) ;
vr_end ( ) ;
vr_call ( "g" ) ;
vr_ask ( ) ;
n0 = vr_pick ( n1 ) ;
return ;
}
