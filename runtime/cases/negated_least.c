#include "vault_rt.h"
#define VR_MAIN f0
void f0 ( void ) ;
void f0 ( void ) {
long long n0 ;
n0 = ( ( - 9223372036854775807 ) - 1 ) ;
n0 = ( - n0 ) ;
return ;
}
