/* The library's words: its version, the sentences of refusals, the names of predicates and models, and the models'
 * lists. They are in libgcr_words.a and in both shared objects; the proved archives stay as they were built. */
#include "gcr.h"

/* How many there are of predicates, and of models. */
#define NUMBERS 13

/* Entry k is that of number k; no number is 0. */
static const char *const predicate_names[NUMBERS + 1] = {
    NULL,
    "RVal",
    "SingleOrder",
    "RealTime",
    "RealTimeWrites",
    "MonotonicReads",
    "ReadYourWrites",
    "MonotonicWrites",
    "WritesFollowReads",
    "Pram",
    "CausalVisibility",
    "CausalArbitration",
    "PerObjectPram",
    "PerObjectSingleOrder",
};

/* A model's predicates end with 0, as the last entry of every list is. */
struct model {
    const char *name;
    uint32_t predicates[5];
};

static const struct model models[NUMBERS + 1] = {
    {NULL, {0}},
    {"Linearizable", {2, 3, 1}},
    {"Regular", {2, 4, 1}},
    {"Sequential", {2, 9, 1}},
    {"Causal", {10, 11, 1}},
    {"RealTimeCausal", {10, 11, 3, 1}},
    {"Processor", {13, 9, 1}},
    {"PerObjectSequential", {13, 12, 1}},
    {"Pram", {9}},
    {"MonotonicReads", {5}},
    {"ReadYourWrites", {6}},
    {"MonotonicWrites", {7}},
    {"WritesFollowReads", {8}},
    {"SlowMemory", {12}},
};

/* Where a number's entry is: the first, which has nothing, of what is none. */
static uint32_t entry(uint32_t number) { return number <= NUMBERS ? number : 0; }

const char *gcr_version(void) { return GCR_VERSION; }

const char *gcr_refusal_sentence(uint32_t number) {
    switch (number) {
#define GCR_REFUSAL(number, question, place, sentence)                                                                 \
    case number:                                                                                                       \
        return sentence;
#include "gcr_refusals.h"
    default:
        return NULL;
    }
}

const char *gcr_predicate_name(uint32_t predicate) { return predicate_names[entry(predicate)]; }

const char *gcr_model_name(uint32_t model) { return models[entry(model)].name; }

const uint32_t *gcr_model_predicates(uint32_t model) { return models[entry(model)].predicates; }
