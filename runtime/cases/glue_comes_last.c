#include "vault_rt.h"
#define VR_MAIN f1
void f0 ( long long n0 ) ;
void f1 ( void ) ;
vr_ref e0 ( vr_ref p0 ) ;
void f1 ( void ) {
f0 ( 3 ) ;
}
void f0 ( long long n0 ) {
vr_ref p0 ;
while ( 1 ) {
if ( ( n0 == 0 ) ) {
break ;
} else {
n0 = ( n0 - 1 ) ;
continue ;
}
}
p0 = vr_new ( 0 , 0 ) ;
p0 = e0 ( p0 ) ;
vr_release ( p0 ) ;
}
vr_ref e0 ( vr_ref p0 ) {
vr_print ( 1 ) ;
vr_release ( p0 ) ;
return p0 ;
}
