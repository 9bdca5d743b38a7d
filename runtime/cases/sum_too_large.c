#include "vault_rt.h"
#define VR_MAIN f0
void f0 ( void ) ;
void f0 ( void ) {
long long n0 ;
n0 = ( 9223372036854775807 + 0 ) ;
vr_print ( n0 ) ;
n0 = ( n0 + 1 ) ;
return ;
}
