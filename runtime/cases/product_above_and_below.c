#include "vault_rt.h"
#define VR_MAIN f0
void f0 ( void ) ;
void f0 ( void ) {
long long n0 ;
n0 = ( 4294967296 * ( - 2147483648 ) ) ;
vr_print ( n0 ) ;
n0 = ( 4294967297 * ( - 2147483648 ) ) ;
return ;
}
