#include "vault_rt.h"
#define VR_MAIN f0
void e0 ( void ) ;
void f0 ( void ) ;
long long f1 ( long long n0 ) ;
void e0 ( void ) {
return ;
}
void f0 ( void ) {
long long n0 ;
n0 = f1 ( 1 ) ;
vr_print ( n0 ) ;
e0 ( ) ;
n0 = f1 ( 0 ) ;
}
long long f1 ( long long n0 ) {
if ( n0 ) {
return 7 ;
}
}
