/* Writes all words of the library: its version, the predicates, the models with their lists, and the refusals. */
#include "gcr.h"
#include <stdio.h>

#define NUMBERS 1024 /* more than a refusal's number has room for */

static void list_predicates(void) {
    for (uint32_t number = 0; number < NUMBERS; number++)
        if (gcr_predicate_name(number))
            printf("predicate %u %s\n", number, gcr_predicate_name(number));
}

static void list_models(void) {
    for (uint32_t number = 0; number < NUMBERS; number++) {
        if (!gcr_model_name(number))
            continue;
        printf("model %u %s:", number, gcr_model_name(number));
        for (const uint32_t *predicate = gcr_model_predicates(number); *predicate; predicate++)
            printf(" %u", *predicate);
        putchar('\n');
    }
}

static void list_refusals(void) {
    for (uint32_t number = 0; number < NUMBERS; number++)
        if (gcr_refusal_sentence(number))
            printf("refusal %u: %s\n", number, gcr_refusal_sentence(number));
}

int main(void) {
    printf("version %s\n", gcr_version());
    list_predicates();
    list_models();
    list_refusals();
    return fflush(stdout) != 0 || ferror(stdout);
}
