/* How much stack a function takes. */
#ifndef PAINTED_H
#define PAINTED_H

#include <stddef.h>

/* The bytes of stack that run(input) takes, with all that it calls; 0 where no thread could be started. */
size_t stack_used(void (*run)(const void *), const void *input);

#endif
