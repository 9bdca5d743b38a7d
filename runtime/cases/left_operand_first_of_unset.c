#include "vault_rt.h"
#define VR_MAIN f0
void f0 ( void ) ;
void f0 ( void ) {
long long n0 ;
long long n1 ;
n0 = ( n1 + ( 1 / 0 ) ) ;
return ;
}
