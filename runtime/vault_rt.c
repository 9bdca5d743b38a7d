/* The runtime of emitted programs: blocks, registers, input, calls of the host, budgets. docs/C.md has what each primitive
 * does, and the rules that VR_REQUIRE names. */

#include "vault_rt.h"

#include <errno.h>
#include <stdarg.h>
#include <stddef.h>
#include <stdio.h>
#include <stdlib.h>

#include "numbers.h"
#include "vault_check.h"
#include "vault_host.h"
#include "vault_library.h"

#if defined(VAULT_REUSE) && defined(VAULT_CHECK)
#error "A record that is used again doesn't show that a reference to it is stale."
#endif

enum { NUMBER_REGISTERS = 8, REFERENCE_REGISTERS = 16, MOST_CELLS = 16777216, CHUNK_RECORDS = 512 };

/* The links and the cells of a live block. Children are a list in both directions, so that any of them leaves it at once. */
struct vr_body {
    vr_ref parent; /* null where the block is below nothing */
    vr_ref child;  /* the first one */
    vr_ref next;   /* of the same parent */
    vr_ref previous;
    bool is_out;         /* with the host */
    bool is_forgotten;   /* the host never gives it back */
    unsigned char state; /* in a text that keeps states */
#ifdef VAULT_CHECK
    long long number_count;
    long long reference_count;
    bool *is_set; /* of the number cells, then of the reference cells */
#endif
    long long cells[];
};

struct chunk {
    struct chunk *next;
    struct vr_block records[CHUNK_RECORDS];
};

/* Where the calls of the host are: none is under way, one gets its arguments, or its answer is read. */
enum talk { IDLE, CALLING, READING };

/* The run: a process has one. */
static struct {
    long long fuel;    /* what is left */
    long long depth;   /* how many functions that aren't glue may run at one time */
    long long running; /* how many do */
    long long heap;    /* how many blocks may live at one time */
    long long live;    /* how many do */
    long long made;

    struct chunk *chunks;
    int used_records;    /* of the first chunk */
    vr_ref free_records; /* of dead blocks, where they are used again; each leads to the next one by its `r` */

    long long numbers[NUMBER_REGISTERS];
    vr_ref references[REFERENCE_REGISTERS];
    bool has_number[NUMBER_REGISTERS];
    bool has_reference[REFERENCE_REGISTERS];

    struct numbers input;
    bool has_input; /* the next number of the input is read already */
    long long next_input;

    enum talk talk;
    struct vault_call call;
    vr_ref objects[VAULT_ARGUMENTS]; /* the call's arguments that are objects */
    long long taken;  /* how many answers were */
    long long picked; /* what vr_pick gave last */

    long long statement; /* the one that runs */
} run;

/* ---- how a run ends */

static int status_once_written(enum vault_status status)
{
    return fflush(stdout) == 0 && !ferror(stdout) ? (int) status : VAULT_NOT_WRITTEN;
}

void (*vault_on_stop)(enum vault_status status, const char *line);

void vault_stop(enum vault_status status, const char *line, ...)
{
    char text[128];
    va_list arguments;
    va_start(arguments, line);
    vsnprintf(text, sizeof text, line, arguments);
    va_end(arguments);
    if (vault_on_stop != NULL) {
        vault_on_stop(status, text);
    }
    if (*text != '\0') {
        puts(text);
    }
    exit(status_once_written(status));
}

#if defined(__GNUC__)
__attribute__((noreturn))
#endif
static void stop_for_memory(void)
{
    vault_stop(VAULT_NO_MEMORY, "%s", "");
}

int vault_done(void)
{
    return status_once_written(VAULT_DONE);
}

void vr_undefined(int rule)
{
    vault_stop(VAULT_UNDEFINED, "undefined %d at %lld", rule, run.statement);
}

void vr_trap(long long kind)
{
    vault_stop(VAULT_TRAP, "trap %lld", kind);
}

/* ---- budgets */

/* The number that the environment gives a budget; without one it is never used up. */
static long long budget(const char *name)
{
    const char *text = getenv(name);
    char *end;
    long long number;
    if (text == NULL) {
        return LLONG_MAX;
    }
    errno = 0;
    number = strtoll(text, &end, 10);
    if (*text < '0' || *text > '9' || *end != '\0' || errno != 0) {
        fprintf(stderr, "%s is no number from 0: %s\n", name, text);
        exit(EXIT_FAILURE);
    }
    return number;
}

void vault_start(bool is_instrumented)
{
    if (!is_instrumented && (getenv("VAULT_FUEL") != NULL || getenv("VAULT_DEPTH") != NULL)) {
        fputs("VAULT_FUEL and VAULT_DEPTH: this build counts no fuel and no depth\n", stderr);
        exit(EXIT_FAILURE);
    }
    run.fuel = budget("VAULT_FUEL");
    run.heap = budget("VAULT_HEAP");
    run.depth = budget("VAULT_DEPTH");
    run.input.file = stdin;
    run.input.line = 1;
    vault_host_start();
    vr_enter();
}

void vr_spend(void)
{
    if (run.fuel == 0) {
        vault_stop(VAULT_BUDGET, "budget fuel");
    }
    run.fuel--;
}

void vr_enter(void)
{
    if (run.running >= run.depth) {
        vault_stop(VAULT_BUDGET, "budget depth");
    }
    run.running++;
}

void vr_leave(void)
{
    run.running--;
}

/* ---- blocks */

static bool is_live(vr_ref block)
{
    return block != vr_null && block->body != NULL;
}

static bool is_out(vr_ref block)
{
    return block->body->is_out;
}

static bool is_below(vr_ref block)
{
    return block->body->parent != vr_null;
}

/* Neither with the host nor below a block. */
static bool is_free(vr_ref block)
{
    return is_live(block) && !is_out(block) && !is_below(block);
}

static void *allocated(size_t size)
{
    void *memory = malloc(size);
    if (memory == NULL) {
        stop_for_memory();
    }
    return memory;
}

static vr_ref new_record(void)
{
    if (run.free_records != vr_null) {
        vr_ref record = run.free_records;
        run.free_records = (vr_ref) record->r;
        return record;
    }
    if (run.chunks == NULL || run.used_records == CHUNK_RECORDS) {
        struct chunk *chunk = allocated(sizeof *chunk);
        chunk->next = run.chunks;
        run.chunks = chunk;
        run.used_records = 0;
    }
    return &run.chunks->records[run.used_records++];
}

/* A body in which no cell is set. */
static struct vr_body *new_body(size_t numbers, size_t references)
{
    size_t size = offsetof(struct vr_body, cells) + numbers * sizeof(long long) + references * sizeof(vr_ref);
#ifdef VAULT_CHECK
    size_t count = numbers + references;
    struct vr_body *body = allocated(size + count);
    body->number_count = (long long) numbers;
    body->reference_count = (long long) references;
    body->is_set = (bool *) body + size;
    for (size_t cell = 0; cell < count; cell++) {
        body->is_set[cell] = false;
    }
#else
    struct vr_body *body = allocated(size);
#endif
    body->parent = body->child = body->next = body->previous = vr_null;
    body->is_out = false;
    body->is_forgotten = false;
    body->state = 0;
    return body;
}

vr_ref vr_new(long long numbers, long long references)
{
    vr_ref block;
    if (run.live >= run.heap) {
        vault_stop(VAULT_BUDGET, "budget heap");
    }
    if (numbers > MOST_CELLS || references > MOST_CELLS) {
        stop_for_memory();
    }
    block = new_record();
    block->body = new_body((size_t) numbers, (size_t) references);
    block->n = block->body->cells;
    block->r = (vr_ref *) (block->n + numbers);
    block->number = ++run.made;
    run.live++;
    return block;
}

void vr_own(vr_ref child, vr_ref parent)
{
    struct vr_body *body;
    if (child == vr_null) {
        return;
    }
    VR_REQUIRE(8, is_free(child) && is_live(parent) && parent != child && !is_below(parent));
    body = child->body;
    body->parent = parent;
    body->next = parent->body->child;
    if (body->next != vr_null) {
        body->next->body->previous = child;
    }
    parent->body->child = child;
}

void vr_disown(vr_ref child)
{
    struct vr_body *body;
    if (child == vr_null) {
        return;
    }
    VR_REQUIRE(8, is_live(child));
    body = child->body;
    if (body->parent == vr_null) {
        return;
    }
    if (body->previous != vr_null) {
        body->previous->body->next = body->next;
    } else {
        body->parent->body->child = body->next;
    }
    if (body->next != vr_null) {
        body->next->body->previous = body->previous;
    }
    body->parent = body->next = body->previous = vr_null;
}

vr_ref vr_parent(vr_ref child)
{
    VR_REQUIRE(8, is_live(child) && is_below(child));
    return child->body->parent;
}

/* The block is dead: its number is left of it. */
static void end_block(vr_ref block)
{
    free(block->body);
    block->body = NULL;
    block->n = NULL;
    block->r = NULL;
    run.live--;
#ifdef VAULT_REUSE
    block->r = (vr_ref *) run.free_records;
    run.free_records = block;
#endif
}

/* What is still to end is a list by `next`, to which each block adds its children. So this takes no memory, and no more
 * stack for a deep tree. */
void vr_release(vr_ref block)
{
    vr_ref doomed = block;
    if (block == vr_null) {
        return;
    }
    VR_REQUIRE(8, is_live(block) && !is_out(block));
    vr_disown(block);
    while (doomed != vr_null) {
        vr_ref dead = doomed;
        vr_ref child = dead->body->child;
        doomed = dead->body->next;
        while (child != vr_null) {
            vr_ref sibling = child->body->next;
            child->body->next = doomed;
            doomed = child;
            child = sibling;
        }
        end_block(dead);
    }
}

/* ---- printing and input */

void vr_print(long long number)
{
    printf("%lld\n", number);
}

/* Whether the input has one more number, which is kept. It is read as the run goes, so a bad line ends the run there. */
long long vr_more(void)
{
    while (!run.has_input) {
        switch (numbers_read(&run.input, &run.next_input)) {
        case NUMBERS_NUMBER:
            run.has_input = true;
            break;
        case NUMBERS_LINE_END:
            break;
        case NUMBERS_FILE_END:
            return false;
        case NUMBERS_BAD:
            vault_stop(VAULT_BAD_NUMBERS, "text input %lld", run.input.line);
        }
    }
    return true;
}

long long vr_read(void)
{
    if (!vr_more()) {
        vault_stop(VAULT_NO_ANSWER, "input ended");
    }
    run.has_input = false;
    return run.next_input;
}

/* ---- registers */

void vr_put_n(long long index, long long number)
{
    VR_REQUIRE(7, index >= 0 && index < NUMBER_REGISTERS);
    VR_KEEP(run.has_number[index], true);
    run.numbers[index] = number;
}

long long vr_get_n(long long index)
{
    VR_REQUIRE(7, index >= 0 && index < NUMBER_REGISTERS && run.has_number[index]);
    return run.numbers[index];
}

void vr_put_p(long long index, vr_ref block)
{
    VR_REQUIRE(7, index >= 0 && index < REFERENCE_REGISTERS);
    VR_KEEP(run.has_reference[index], true);
    run.references[index] = block;
}

vr_ref vr_get_p(long long index)
{
    VR_REQUIRE(7, index >= 0 && index < REFERENCE_REGISTERS && run.has_reference[index]);
    return run.references[index];
}

/* ---- calls of the host */

void vr_call(const char *name)
{
    VR_REQUIRE(8, run.talk == IDLE);
    VR_KEEP(run.talk, CALLING);
    run.call.name = name;
    run.call.count = 0;
}

static void add_argument(bool is_object, long long number)
{
    struct vault_argument *argument;
    VR_REQUIRE(8, run.talk == CALLING && run.call.count < VAULT_ARGUMENTS);
    argument = &run.call.arguments[run.call.count++];
    argument->is_object = is_object;
    argument->number = number;
}

void vr_arg_n(long long number)
{
    add_argument(false, number);
}

/* The block may be dead. */
void vr_arg_p(vr_ref block)
{
    VR_REQUIRE(8, block != vr_null);
    add_argument(true, block->number);
    run.objects[run.call.count - 1] = block;
}

void vr_ask(void)
{
    VR_REQUIRE(8, run.talk == CALLING);
    VR_KEEP(run.talk, READING);
    run.call.next_object = run.made + 1;
    if (!vault_host_ask(&run.call)) {
        vault_stop(VAULT_NO_ANSWER, "answers ended");
    }
    run.taken++;
}

static void bad_answer(void)
{
    vault_stop(VAULT_NO_ANSWER, "answer %lld bad", run.taken);
}

long long vr_int(void)
{
    long long number = 0;
    VR_REQUIRE(8, run.talk == READING);
    if (!vault_host_next(&number)) {
        bad_answer();
    }
    return number;
}

long long vr_pick(long long mask)
{
    long long bit = vr_int();
    if (bit < 0 || bit > 63 || ((unsigned long long) mask >> bit & 1) == 0) {
        bad_answer();
    }
    run.picked = bit;
    return bit;
}

void vault_host_forget(long long object)
{
    for (int i = 0; i < run.call.count; i++) {
        if (run.call.arguments[i].is_object && run.call.arguments[i].number == object && is_live(run.objects[i])) {
            run.objects[i]->body->is_forgotten = true;
        }
    }
}

void vr_out(vr_ref block)
{
    VR_REQUIRE(8, run.talk == READING && is_free(block));
    if (block->body->is_forgotten) {
        vr_release(block);
    } else {
        block->body->is_out = true;
    }
}

/* The block may be dead. */
void vr_back(vr_ref block)
{
    VR_REQUIRE(8, run.talk == READING && block != vr_null);
    if (!is_live(block) || !is_out(block)) {
        bad_answer();
    }
    block->body->is_out = false;
}

void vr_end(void)
{
    long long number;
    VR_REQUIRE(8, run.talk == READING);
    VR_KEEP(run.talk, IDLE);
    if (vault_host_next(&number)) {
        bad_answer();
    }
}

/* ---- states, in a text that keeps them */

void vault_set_state(vr_ref block, long long state)
{
    block->body->state = (unsigned char) state;
}

unsigned vault_state(vr_ref block)
{
    return 1u << block->body->state;
}

long long vault_picked(void)
{
    return run.picked;
}

/* ---- what instrumented texts ask of cells */

#ifdef VAULT_CHECK
void vr_at(long long statement)
{
    run.statement = statement;
}

/* The marks of a block's cells of one sort, of which there is one at this index. */
static bool *mark_of_number(vr_ref block, long long index)
{
    VR_REQUIRE(1, is_live(block));
    VR_REQUIRE(2, index < block->body->number_count);
    return &block->body->is_set[index];
}

static bool *mark_of_reference(vr_ref block, long long index)
{
    VR_REQUIRE(1, is_live(block));
    VR_REQUIRE(2, index < block->body->reference_count);
    return &block->body->is_set[block->body->number_count + index];
}

long long vr_load_n(vr_ref block, long long index)
{
    VR_REQUIRE(2, *mark_of_number(block, index));
    return block->n[index];
}

vr_ref vr_load_r(vr_ref block, long long index)
{
    VR_REQUIRE(2, *mark_of_reference(block, index));
    return block->r[index];
}

void vr_store_n(vr_ref block, long long index, long long number)
{
    *mark_of_number(block, index) = true;
    block->n[index] = number;
}

void vr_store_r(vr_ref block, long long index, vr_ref reference)
{
    *mark_of_reference(block, index) = true;
    block->r[index] = reference;
}
#endif
