/* `main` around a program: an emitted text, or what `instrument` wrote of one. VAULT_PROGRAM is the name of its file, in
 * quotes. */

#include "vault_text.h"

#ifdef VAULT_CHECK_H
enum { IS_INSTRUMENTED = true };
#else
enum { IS_INSTRUMENTED = false };
#ifdef VAULT_CHECK
#error "A checking build takes what `instrument` writes, since an emitted text has no place to check at."
#endif
#endif

int main(void)
{
    vault_start(IS_INSTRUMENTED);
    (void) VR_MAIN();
    return vault_done();
}
