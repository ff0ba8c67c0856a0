/* The longest script, and records of as many events as there can be: some that pass, and one that is refused for a
 * ring. */
#ifndef LARGEST_H
#define LARGEST_H

#include "gcr.h"

#define LARGEST_SITES 8
#define LARGEST_RECORDS 7

/* An opening for each of the 32 objects. */
const uint8_t *largest_openings(void);

/* A day of 4,096 puts, gets, deliveries and closes, many of them refused. */
const uint8_t *largest_script(void);

/* 384 events each, in GCR_RECORD_MOST bytes, but for the last:
 *   0  what that day leaves, begun with those openings
 *   1  one site's 384 events, each of which sees all before it
 *   2  record 1 with the times turned round, so that every event leads to itself by site order and visibility
 *   3  record 1 with event 0 seeing event 383: refused by question 10
 *   4  record 0 by clocks that may differ by 100 ms
 *   5  one site's puts and gets in turn, of which event 0 leads to itself by no way but through all the others
 *   6  the first 256 events of record 1 in edition GCR2, which has no more */
const uint8_t *largest_record(size_t k);
size_t largest_length(size_t k);

#endif
