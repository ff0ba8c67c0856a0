/* The function runs on a thread of its own, whose stack is painted before; how far down the paint is gone tells how
 * much was taken. Memory that is set aside and never written keeps its paint, and is not needed either. */
#define _POSIX_C_SOURCE 200809L /* pthread_attr_setstack */
#include "painted.h"
#include <pthread.h>
#include <stdint.h>

#define WORDS ((size_t)1 << 17) /* 1 MiB */
#define PAINT UINT64_C(0xA5C3A5C3A5C3A5C3)

static _Alignas(4096) uint64_t stack[WORDS];

struct measured {
    void (*run)(const void *);
    const void *input;
    size_t used;
};

static void paint(void) {
    for (size_t i = 0; i < WORDS; i++)
        stack[i] = PAINT;
}

/* Stacks grow towards the first word. */
static size_t words_left(void) {
    size_t left = 0;
    while (left < WORDS && stack[left] == PAINT)
        left++;
    return left;
}

/* Looked at before the thread ends, since its end takes stack too. */
static void *measure(void *given) {
    struct measured *m = given;
    volatile char top = 0; /* what lies below it is the function's */
    m->run(m->input);
    m->used = (size_t)((uintptr_t)&top - (uintptr_t)(stack + words_left()));
    return NULL;
}

static int run_on_stack(struct measured *m) {
    pthread_attr_t attributes;
    pthread_t thread;
    if (pthread_attr_init(&attributes))
        return 0;
    int started = !pthread_attr_setstack(&attributes, stack, sizeof stack) &&
                  !pthread_create(&thread, &attributes, measure, m);
    pthread_attr_destroy(&attributes);
    return started && !pthread_join(thread, NULL);
}

size_t stack_used(void (*run)(const void *), const void *input) {
    struct measured m = {run, input, 0};
    paint();
    return run_on_stack(&m) ? m.used : 0;
}
