#include "largest.h"

#include <string.h>

#define EVENTS GCR_EVENTS_MOST
#define BLOCK 512
#define SEEN 32 /* where a slot's visible set begins */

/* Where events lie: the bytes of a slot, of which the visible set is the end, and how many fill a block. */
struct slots {
    size_t bytes, in_a_block;
};

static const struct slots gcr3 = {80, 6}, gcr2 = {64, 7};

#define OLDER_EVENTS 256 /* the most that GCR2 has */

static uint8_t script[GCR_SCRIPT_MOST];
static uint8_t records[LARGEST_RECORDS][GCR_RECORD_MOST];
static size_t lengths[LARGEST_RECORDS];

/* Bytes that look random and are the same on every run. */
static uint8_t drawn(void) {
    static uint32_t state = 1;
    state = state * 1664525 + 1013904223;
    return (uint8_t)(state >> 24);
}

/* One in 16 a close; else a put, a get, or the delivery of an event, at any of the sites. */
static void draw_call(uint8_t *call) {
    static const uint8_t kinds[] = {GCR_PUT, GCR_GET, GCR_DELIVER};
    call[0] = drawn() % 16 ? kinds[drawn() % 3] : GCR_CLOSE;
    if (call[0] == GCR_CLOSE)
        return;
    call[1] = drawn() % LARGEST_SITES;
    call[2] = call[0] == GCR_DELIVER ? 0 : drawn() % 32;
    call[4] = call[0] == GCR_GET ? 0 : drawn();
    call[5] = call[0] == GCR_DELIVER ? drawn() % 2 : 0; /* of events from 256 on too */
}

const uint8_t *largest_openings(void) {
    static uint8_t openings[GCR_OPENINGS_BYTES];
    for (uint32_t object = 0; object < GCR_OPENING_OBJECTS; object++)
        gcr_set_opening(openings, object, UINT32_MAX - object);
    return openings;
}

const uint8_t *largest_script(void) {
    if (!script[0])
        for (size_t at = 0; at < sizeof script; at += GCR_CALL_BYTES)
            draw_call(script + at);
    return script;
}

static void rehearse(uint32_t sites, const uint8_t *calls, size_t len, size_t k) {
    static uint8_t answers[GCR_SCRIPT_MOST];
    lengths[k] = gcr_rehearsed_length(gcr_rehearse(sites, largest_openings(), GCR_OPENINGS_BYTES, calls, len,
                                                   records[k], GCR_RECORD_MOST, answers, sizeof answers));
}

/* As many events as there can be at one site: puts, and in turn with them calls of another kind. */
static void one_site(uint8_t other, size_t k) {
    static uint8_t calls[EVENTS * GCR_CALL_BYTES];
    for (size_t at = 0; at < sizeof calls; at += 2 * GCR_CALL_BYTES) {
        calls[at] = GCR_PUT;
        calls[at + GCR_CALL_BYTES] = other;
    }
    rehearse(1, calls, sizeof calls, k);
}

static uint8_t *slot_of(const struct slots *slots, uint8_t *record, size_t event) {
    return record + BLOCK * (1 + event / slots->in_a_block) + slots->bytes * (event % slots->in_a_block);
}

/* As a rehearsal writes them. */
static uint8_t *slot(uint8_t *record, size_t event) { return slot_of(&gcr3, record, event); }

static void see(uint8_t *slot, size_t event) { slot[SEEN + event / 8] |= (uint8_t)(1 << event % 8); }

static void store(uint8_t *at, uint32_t number) {
    at[0] = (uint8_t)number;
    at[1] = (uint8_t)(number >> 8);
}

/* Times below 65,536, as a rehearsal has them too. */
static void set_times(uint8_t *slot, uint32_t start, uint32_t end) {
    store(slot + 16, start);
    store(slot + 24, end);
}

/* The last event starts first, and event 0 last. */
static void turn_times(uint8_t *record) {
    for (uint32_t event = 0; event < EVENTS; event++) {
        uint32_t start = 2 * (EVENTS - 1 - event);
        set_times(slot(record, event), start, start + 1);
    }
}

/* An event sees the one before it alone. All overlap in time, but the last event returns before event 0 starts. */
static void lay_ring(uint8_t *record) {
    for (size_t event = 0; event < EVENTS; event++) {
        uint8_t *at = slot(record, event);
        memset(at + SEEN, 0, gcr3.bytes - SEEN);
        if (event > 0)
            see(at, event - 1);
        set_times(at, event == 0 ? 2 : 0, event == EVENTS - 1 ? 1 : 2);
    }
}

/* The first events of a record in which none sees a later one, as GCR2 has them. */
static void lay_older(uint8_t *record, uint8_t *older, size_t *length) {
    *length = BLOCK * (1 + (OLDER_EVENTS + gcr2.in_a_block - 1) / gcr2.in_a_block);
    memcpy(older, record, BLOCK);
    older[3] = '2';
    older[4] = (uint8_t)OLDER_EVENTS;
    older[5] = OLDER_EVENTS >> 8;
    for (size_t event = 0; event < OLDER_EVENTS; event++)
        memcpy(slot_of(&gcr2, older, event), slot(record, event), gcr2.bytes);
}

/* The block's check, after its bytes were changed. */
static void seal(uint8_t *block, uint32_t number) {
    uint32_t a = number + 1, b = 0;
    for (size_t i = 0; i < BLOCK - 4; i += 2) {
        a = (a + block[i] + 256u * block[i + 1]) % 65521;
        b = (b + a) % 65521;
    }
    store(block + 508, a);
    store(block + 510, b);
}

static void seal_all(uint8_t *record, size_t length) {
    for (uint32_t block = 0; block < length / BLOCK; block++)
        seal(record + BLOCK * block, block);
}

static void make_records(void) {
    rehearse(LARGEST_SITES, largest_script(), GCR_SCRIPT_MOST, 0);
    for (size_t k = 1; k < 4; k++)
        one_site(GCR_PUT, k);
    turn_times(records[2]);
    see(slot(records[3], 0), EVENTS - 1);
    rehearse(LARGEST_SITES, largest_script(), GCR_SCRIPT_MOST, 4);
    records[4][GCR_DIFFERENCE_AT] = 100;
    one_site(GCR_GET, 5);
    lay_ring(records[5]);
    lay_older(records[1], records[6], &lengths[6]);
    for (size_t k = 2; k < LARGEST_RECORDS; k++)
        seal_all(records[k], lengths[k]);
}

const uint8_t *largest_record(size_t k) {
    if (!records[0][0])
        make_records();
    return records[k];
}

size_t largest_length(size_t k) {
    largest_record(k);
    return lengths[k];
}
