#include "vault_rt.h"
#define VR_MAIN f0
void f0(void);void f1(long long n0,vr_ref p0);void f0(void){vr_ref p0;long long n0;p0=vr_new(1,1);p0->n[0]=(5-(-2));n0=(p0->n[0]<=7);if((n0!=0)){vr_print(n0);}
f1(n0,p0);}void f1(long long n0,vr_ref p0){vr_ref p1;p1
=
p0->r[0];}
