#include "vault_rt.h"
#define VR_MAIN f0
void f0 ( void ) ;
void f0 ( void ) {
long long n0 ;
long long n1 ;
n1 = n0 ;
return ;
}
