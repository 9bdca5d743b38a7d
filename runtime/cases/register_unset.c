#include "vault_rt.h"
#define VR_MAIN f0
void f0 ( void ) ;
void f0 ( void ) {
long long n0 ;
vr_put_n ( 0 , 4 ) ;
n0 = vr_get_n ( 0 ) ;
vr_print ( n0 ) ;
n0 = vr_get_n ( 1 ) ;
return ;
}
