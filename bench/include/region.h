/* A region owns nodes: those that it makes, and those that it adopts. They may be read until it is dropped. */
#include "tools.h"

struct node {
    int value;
};
struct region {
    int nodes;
    /*@null@*/ /*@only@*/ struct node *last;
};

#ifndef MODELS
void region_drop(/*@only@*/ struct region *r) TAKES(1);
/*@only@*/ struct region *region_make(void) GIVES(region_drop);
/*@dependent@*/ struct node *region_node(struct region *r, int value);
void node_drop(/*@only@*/ struct node *n) TAKES(1);
void region_adopt(struct region *r, /*@only@*/ struct node *n) TAKES(2);
/*@only@*/ struct node *node_make(int value) GIVES(node_drop) GIVES_TOO(region_adopt, 2);
#else
static void node_drop(struct node *n) { free(n); }
static struct node *node_make(int value) {
    struct node *n = reserve(sizeof *n);
    n->value = value;
    return n;
}
static void region_drop(struct region *r) {
    free(r->last);
    free(r);
}
static struct region *region_make(void) {
    struct region *r = reserve(sizeof *r);
    r->nodes = 0;
    r->last = NULL;
    return r;
}
static void region_adopt(struct region *r, struct node *n) {
    r->nodes = 1;
    r->last = n;
}
static struct node *region_node(struct region *r, int value) {
    region_adopt(r, node_make(value));
    return r->last;
}
#endif
