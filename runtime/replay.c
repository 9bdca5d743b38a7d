/* A host that reads its answers from the file that VAULT_ANSWERS names, a line each, and writes the calls as events. */

#include <stdio.h>
#include <stdlib.h>

#include "numbers.h"
#include "vault_host.h"

static struct numbers answers;

void vault_host_start(void)
{
    const char *name = getenv("VAULT_ANSWERS");
    if (name == NULL) {
        return;
    }
    answers.file = fopen(name, "r");
    if (answers.file == NULL) {
        perror(name);
        exit(EXIT_FAILURE);
    }
    answers.line = 1;
}

static void write_event(const struct vault_call *call)
{
    printf("@%s", call->name);
    for (int i = 0; i < call->count; i++) {
        printf(call->arguments[i].is_object ? " #%lld" : " %lld", call->arguments[i].number);
    }
    putchar('\n');
}

/* A last line feed begins no further line. */
static bool has_line(void)
{
    int character = answers.file == NULL ? EOF : getc(answers.file);
    return character != EOF && ungetc(character, answers.file) != EOF;
}

bool vault_host_ask(const struct vault_call *call)
{
    write_event(call);
    return has_line();
}

/* The runtime asks until the answer's line ends, and no further. */
bool vault_host_next(long long *number)
{
    enum numbers_next next = numbers_read(&answers, number);
    if (next == NUMBERS_BAD) {
        vault_stop(VAULT_BAD_NUMBERS, "text answers %lld", answers.line);
    }
    return next == NUMBERS_NUMBER;
}
