/* A freestanding runtime: the program that VAULT_PROGRAM names, if it is told, and its primitives, over the three functions of
 * vault_free.h and a host. It needs no C library. A block's memory is given back as the block ends, so it is for programs in which
 * no external is told of an object that is gone. There are no budgets, and nothing is checked: what `vaultc verify` accepts is
 * never undefined. A program that prints or reads input doesn't link. */

#ifndef VAULT_FREE
#define VAULT_FREE
#endif

#include "vault_free.h"

#include "vault_library.h"
#include "vault_rt.h"

enum { NUMBER_REGISTERS = 8, REFERENCE_REGISTERS = 16, MOST_CELLS = 16777216 };

/* A block: its record comes first, and its cells last. Children are a list in both directions. */
struct vr_body {
    struct vr_block record;
    vr_ref parent; /* null if the block is below nothing */
    vr_ref child;  /* the first one */
    vr_ref next;   /* of the same parent */
    vr_ref previous;
    bool is_out;         /* with the host */
    bool is_forgotten;   /* the host never gives it back */
    unsigned char state; /* in a text that keeps states */
    long long cells[];
};

static struct {
    long long made;
    long long numbers[NUMBER_REGISTERS];
    vr_ref references[REFERENCE_REGISTERS];
    struct vault_call call;
    vr_ref objects[VAULT_ARGUMENTS]; /* the call's arguments that are objects */
    long long picked;                /* what vr_pick gave last */
} run;

void (*vault_on_stop)(enum vault_status status, const char *line);

#ifdef VAULT_PROGRAM
#include "vault_text.h"

void vault_run(void)
{
    (void) VR_MAIN();
}
#endif

#if defined(__GNUC__)
__attribute__((noreturn))
#endif
static void end_run(enum vault_status status, const char *line)
{
    if (vault_on_stop != NULL) {
        vault_on_stop(status, line);
    }
    vault_end(status, line);
}

void vr_trap(long long kind)
{
    end_run(VAULT_TRAP, kind == 1 ? "trap 1" : "trap 2");
}

/* ---- blocks */

vr_ref vr_new(long long numbers, long long references)
{
    bool is_small = numbers <= MOST_CELLS && references <= MOST_CELLS;
    size_t cells = is_small ? (size_t) numbers * sizeof(long long) + (size_t) references * sizeof(vr_ref) : 0;
    struct vr_body *body = is_small ? vault_allocate(offsetof(struct vr_body, cells) + cells) : NULL;
    if (body == NULL) {
        end_run(VAULT_NO_MEMORY, "");
    }
    body->record.body = body;
    body->record.n = body->cells;
    body->record.r = (vr_ref *) (void *) (body->cells + numbers);
    body->record.number = ++run.made;
    body->parent = body->child = body->next = body->previous = vr_null;
    body->is_out = body->is_forgotten = false;
    body->state = 0;
    return &body->record;
}

void vr_own(vr_ref child, vr_ref parent)
{
    if (child != vr_null) {
        vr_ref first = parent->body->child;
        child->body->parent = parent;
        child->body->next = first;
        if (first != vr_null) {
            first->body->previous = child;
        }
        parent->body->child = child;
    }
}

void vr_disown(vr_ref child)
{
    struct vr_body *body = child != vr_null ? child->body : NULL;
    if (body == NULL || body->parent == vr_null) {
        return;
    }
    if (body->previous != vr_null) {
        body->previous->body->next = body->next;
    } else {
        body->parent->body->child = body->next;
    }
    if (body->next != vr_null) {
        body->next->body->previous = body->previous;
    }
    body->parent = body->next = body->previous = vr_null;
}

vr_ref vr_parent(vr_ref child)
{
    return child->body->parent;
}

/* Puts the children of a block before a list by `next`; gives the list. */
static vr_ref with_children(vr_ref block, vr_ref list)
{
    vr_ref child = block->body->child;
    while (child != vr_null) {
        vr_ref sibling = child->body->next;
        child->body->next = list;
        list = child;
        child = sibling;
    }
    return list;
}

/* It takes no memory, and no more stack for a deep tree. */
void vr_release(vr_ref block)
{
    vr_ref doomed = block;
    vr_disown(block);
    while (doomed != vr_null) {
        vr_ref dead = doomed;
        doomed = with_children(dead, dead->body->next);
        vault_deallocate(dead->body);
    }
}

/* ---- registers */

void vr_put_n(long long index, long long number)
{
    run.numbers[index] = number;
}

long long vr_get_n(long long index)
{
    return run.numbers[index];
}

void vr_put_p(long long index, vr_ref block)
{
    run.references[index] = block;
}

vr_ref vr_get_p(long long index)
{
    return run.references[index];
}

/* ---- calls of the host */

void vr_call(const char *name)
{
    run.call.name = name;
    run.call.count = 0;
}

static void add_argument(bool is_object, long long number, vr_ref block)
{
    int place = run.call.count++;
    run.call.arguments[place].is_object = is_object;
    run.call.arguments[place].number = number;
    run.objects[place] = block;
}

void vr_arg_n(long long number)
{
    add_argument(false, number, vr_null);
}

void vr_arg_p(vr_ref block)
{
    add_argument(true, block->number, block);
}

void vr_ask(void)
{
    run.call.next_object = run.made + 1;
    if (!vault_host_ask(&run.call)) {
        end_run(VAULT_NO_ANSWER, "answers ended");
    }
}

static void bad_answer(void)
{
    end_run(VAULT_NO_ANSWER, "answer bad");
}

long long vr_int(void)
{
    long long number = 0;
    if (!vault_host_next(&number)) {
        bad_answer();
    }
    return number;
}

long long vr_pick(long long mask)
{
    long long bit = vr_int();
    if (bit < 0 || bit > 63 || ((unsigned long long) mask >> bit & 1) == 0) {
        bad_answer();
    }
    run.picked = bit;
    return bit;
}

void vault_host_forget(long long object)
{
    for (int i = 0; i < run.call.count; i++) {
        if (run.objects[i] != vr_null && run.objects[i]->number == object) {
            run.objects[i]->body->is_forgotten = true;
        }
    }
}

void vr_out(vr_ref block)
{
    block->body->is_out = true;
    if (block->body->is_forgotten) {
        vr_release(block);
    }
}

void vr_back(vr_ref block)
{
    if (!block->body->is_out) {
        bad_answer();
    }
    block->body->is_out = false;
}

void vr_end(void)
{
    long long number;
    if (vault_host_next(&number)) {
        bad_answer();
    }
}

/* ---- states, in a text that keeps them */

void vault_set_state(vr_ref block, long long state)
{
    block->body->state = (unsigned char) state;
}

unsigned vault_state(vr_ref block)
{
    return 1u << block->body->state;
}

long long vault_picked(void)
{
    return run.picked;
}
