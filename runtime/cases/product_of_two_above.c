#include "vault_rt.h"
#define VR_MAIN f0
void f0 ( void ) ;
void f0 ( void ) {
long long n0 ;
n0 = ( 3037000499 * 3037000499 ) ;
vr_print ( n0 ) ;
n0 = ( 3037000500 * 3037000500 ) ;
return ;
}
