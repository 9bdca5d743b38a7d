/* A sensor is off when it is made. Its value may be read while it is on, and it is dropped while it is off. A box owns a sensor. */
#include "tools.h"

enum power { OFF, ON };
struct sensor {
    int last;
    enum power power;
};
struct box {
    int size;
    /*@only@*/ struct sensor *content;
};

#ifdef __CHECKER__ /* sparse counts what is held: one before each of these calls, and one after */
#define BOX_MAKE __attribute__((context(held, 1, 1)))
#define BOX_SWAP __attribute__((context(held, 1, 1)))
#define BOX_OPEN __attribute__((context(held, 1, 1)))
#elif defined __clang__ && !defined MODELS
#define BOX_MAKE GIVES(box_drop) TAKES(1)
#define BOX_SWAP GIVES(sensor_drop) TAKES(2)
#define BOX_OPEN GIVES(sensor_drop) TAKES(1)
#elif defined __GNUC__ && !defined S_SPLINT_S && !defined MODELS
#define BOX_MAKE GIVES(box_drop)
#define BOX_SWAP GIVES(sensor_drop)
#define BOX_OPEN GIVES(sensor_drop)
#else
#define BOX_MAKE
#define BOX_SWAP
#define BOX_OPEN
#endif

/* ASSUME_OFF tells models what a function's callers promise. */
#ifndef MODELS
#define ASSUME_OFF(s)
void sensor_drop(/*@off@*/ /*@only@*/ struct sensor *s) TAKES(1);
/*@off@*/ /*@only@*/ struct sensor *sensor_make(int last) GIVES(sensor_drop);
/*@off@*/ /*@only@*/ /*@null@*/ struct sensor *sensor_find(void) MAY_GIVE(sensor_drop);
void sensor_on(struct sensor *s) /*@ensures on s@*/;
void sensor_off(struct sensor *s) /*@ensures off s@*/;
int sensor_is_on(struct sensor *s);
int sensor_value(/*@on@*/ struct sensor *s);

/* A sensor that others share is lent in state off, and given back so. */
/*@off@*/ /*@shared@*/ struct sensor *sensor_share(void);
void sensor_give_back(/*@off@*/ /*@shared@*/ struct sensor *s);

/* A box takes its sensor over, also the new one of a swap, which gives the old one. Opened it gives its sensor and is gone. */
void box_drop(/*@only@*/ struct box *b) TAKES(1);
/*@off@*/ /*@only@*/ struct sensor *box_open(/*@only@*/ struct box *b) BOX_OPEN;
/*@only@*/ struct box *box_make(/*@only@*/ struct sensor *s) BOX_MAKE GIVES_TOO(box_open, 1);
/*@off@*/ /*@only@*/ struct sensor *box_swap(struct box *b, /*@only@*/ struct sensor *s) BOX_SWAP;
#else
#define ASSUME_OFF(s) ((s)->power = OFF)
#define sensor_drop(s) (REQUIRE((s)->power == OFF), free(s))
static struct sensor *sensor_make(int last) {
    struct sensor *s = reserve(sizeof *s);
    s->last = last;
    s->power = OFF;
    return s;
}
static struct sensor *sensor_find(void) { return ask() ? sensor_make(0) : NULL; }
static void sensor_on(struct sensor *s) { s->power = ON; }
static void sensor_off(struct sensor *s) { s->power = OFF; }
static int sensor_is_on(struct sensor *s) { return s->power == ON; }
#define sensor_value(s) (REQUIRE((s)->power == ON), (s)->last)
static struct sensor shared_sensor;
static struct sensor *sensor_share(void) {
    shared_sensor.power = OFF;
    return &shared_sensor;
}
#define sensor_give_back(s) REQUIRE((s)->power == OFF)
static void box_drop(struct box *b) {
    free(b->content);
    free(b);
}
static struct box *box_make(struct sensor *s) {
    struct box *b = reserve(sizeof *b);
    b->size = 1;
    b->content = s;
    return b;
}
static struct sensor *box_swap(struct box *b, struct sensor *s) {
    struct sensor *old = b->content;
    b->content = s;
    return old;
}
static struct sensor *box_open(struct box *b) {
    struct sensor *s = b->content;
    b->content = NULL;
    free(b);
    return s;
}
#endif
