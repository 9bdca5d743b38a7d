#include "vault_rt.h"
#define VR_MAIN f0
void f0 ( void ) ;
void f0 ( void ) {
long long n0 ;
n0 = vr_pick ( 3 ) ;
return ;
}
