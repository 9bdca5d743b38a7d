#include "vault_rt.h"
#define VR_MAIN f0
void f0 ( void ) ;
void f0 ( void ) {
long long n0 ;
n0 = ( ( 0 && ( 1 / 0 ) ) + ( 2 || ( 1 / 0 ) ) ) ;
vr_print ( n0 ) ;
n0 = ( 5 && ( 1 / 0 ) ) ;
return ;
}
