/* Surroundings for vault_free.c that count what is allocated, and a host with the externals of the driver in test_lib.py. Prints how
 * many calls there were, and how many blocks are left. */

#include <stdio.h>
#include <stdlib.h>
#include <string.h>

#include "vault_free.h"

static int blocks;
static int calls;
static bool has_answer;

void *vault_allocate(size_t size)
{
    blocks++;
    return malloc(size);
}

void vault_deallocate(void *memory)
{
    blocks--;
    free(memory);
}

void vault_end(enum vault_status status, const char *line)
{
    puts(line);
    exit((int) status);
}

bool vault_host_ask(const struct vault_call *call)
{
    calls++;
    has_answer = strcmp(call->name, "sent") == 0;
    if (strcmp(call->name, "shut") == 0) {
        vault_host_forget(call->arguments[0].number);
    }
    return true;
}

bool vault_host_next(long long *number)
{
    bool is_given = has_answer;
    has_answer = false;
    *number = 5;
    return is_given;
}

int main(void)
{
    vault_run();
    printf("%d %d\n", calls, blocks);
    return 0;
}
