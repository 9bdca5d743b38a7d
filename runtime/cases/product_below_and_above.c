#include "vault_rt.h"
#define VR_MAIN f0
void f0 ( void ) ;
void f0 ( void ) {
long long n0 ;
n0 = ( ( - 2147483648 ) * 4294967296 ) ;
vr_print ( n0 ) ;
n0 = ( ( - 2147483649 ) * 4294967296 ) ;
return ;
}
