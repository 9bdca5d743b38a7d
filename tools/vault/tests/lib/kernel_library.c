/* Surroundings of pump.v's library in a freestanding build: they call its functions, print what is refused, and go on after a trap. The host's sensor tells 7. */

#include <setjmp.h>
#include <stdio.h>
#include <stdlib.h>

#include "pump.h"
#include "vault_free.h"

enum { PUMPS = 90 };

static int blocks;
static bool has_answer;
static jmp_buf after_end;

void *vault_allocate(size_t size)
{
    blocks++;
    return malloc(size);
}

void vault_deallocate(void *memory)
{
    blocks--;
    free(memory);
}

void vault_end(enum vault_status status, const char *line)
{
    (void) status;
    puts(line);
    longjmp(after_end, 1);
}

bool vault_host_ask(const struct vault_call *call)
{
    has_answer = call->count == 1;
    return true;
}

bool vault_host_next(long long *number)
{
    bool is_given = has_answer;
    has_answer = false;
    *number = 7;
    return is_given;
}

static void expect(bool came_back)
{
    if (!came_back) {
        puts(pump_refused());
    }
}

/* More pumps than the table of objects has places at first. */
static void install_many(struct pump_pump *pumps)
{
    for (int i = 0; i < PUMPS; i++) {
        expect(pump_install(1, false, &pumps[i]));
    }
}

static void use(struct pump_pump first, struct pump_pump second)
{
    bool is_faster = true;
    long long average = 0;
    expect(pump_average(first, &average));
    expect(pump_is_faster(first, second, &is_faster));
    printf("faster %d\n", is_faster);
    expect(pump_start(first));
    expect(pump_turn(first));
    expect(pump_is_faster(second, first, &is_faster));
    expect(pump_average(first, &average));
    printf("average %lld\n", average);
    expect(pump_remove(first));
    expect(pump_remove(second));
    expect(pump_stop(second));
}

int main(void)
{
    static struct pump_pump pumps[PUMPS];
    struct pump_pump first, second;
    long long average;
    expect(pump_install(1, true, &first));
    pump_begin();
    expect(pump_install(1, true, &first));
    expect(pump_install(7, true, &second));
    install_many(pumps);
    use(first, second);
    expect(pump_start(pumps[0]));
    if (setjmp(after_end) == 0) {
        expect(pump_average(pumps[0], &average));
    }
    expect(pump_stop(pumps[0]));
    printf("%d blocks\n", blocks);
    return 0;
}
