#include "vault_rt.h"
#define VR_MAIN f0
void f0 ( void ) ;
void f0 ( void ) {
long long n0 ;
if ( n0 ) {
vr_print ( 1 ) ;
} else {
vr_print ( 2 ) ;
}
return ;
}
