#include "vault_rt.h"
#define VR_MAIN f0
void f0 ( void ) ;
void f0 ( void ) {
long long n0 ;
vr_put_n ( 8 , n0 ) ;
return ;
}
