#include "vault_rt.h"
#define VR_MAIN f0
void f0 ( void ) ;
void f0 ( void ) {
long long n0 ;
n0 = ( ( - 7 ) % 2 ) ;
vr_print ( n0 ) ;
n0 = ( 7 % 0 ) ;
return ;
}
