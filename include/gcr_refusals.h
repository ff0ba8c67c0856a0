/* The refusals: of each its number, the question that got a no, what its place is, and its sentence. They stand here
 * alone: gcr_refusal_sentence and the Rust bindings take their sentences from this list, and the table of
 * docs/FORMAT.md, which is the one for people, is held to it.
 *
 * A host that wants the list itself defines GCR_REFUSAL(number, question, place, sentence) and includes this file,
 * which takes the definition away again:
 *
 *   #define GCR_REFUSAL(number, question, place, sentence) printf("%d: %s\n", number, sentence);
 *   #include "gcr_refusals.h"
 *
 * Where the place is "none", a refusal of a record has place 0, and one of a rehearsal or of a call has no place. */

/* Asked of a record, in this order. */
GCR_REFUSAL(1, "has the lent work slice 2,304 words of 64 bits or more?", "none",
            "The work slice has fewer than 2,304 words.")
GCR_REFUSAL(2, "is the number of the predicate or model 1 to 13?", "none",
            "The predicate or model number is not 1 to 13.")
GCR_REFUSAL(3, "is the length 512 to 33,280 bytes, and a multiple of 512?", "none",
            "The record's length is not a multiple of 512 from 512 to 33,280 bytes.")
GCR_REFUSAL(4, "has each block of 512 bytes the check of its bytes?", "the lowest block that has not",
            "The block at this place does not have the check sums of its bytes.")
GCR_REFUSAL(5, "is block 0 as laid out, in edition GCR1, GCR2 or GCR3?", "none",
            "Block 0 is not laid out as the head of a record of edition GCR1, GCR2 or GCR3.")
GCR_REFUSAL(6, "are there 1 + (n/7 rounded up) blocks, in edition GCR3 1 + (n/6 rounded up)?", "none",
            "The number of blocks does not fit the number of events.")
GCR_REFUSAL(7, "is every slot as laid out?", "the lowest slot that is not",
            "The slot at this place is not laid out as an event, or is not empty though it is past the last one.")
GCR_REFUSAL(8, "is every position below n, and no other event's?",
            "the lowest event whose position is n or more, or that of a lower event",
            "The event at this place has an arbitration position that is too large or that a lower event has.")
GCR_REFUSAL(9, "do visible sets hold only events below n, and never the event itself?",
            "the lowest event whose set does not",
            "The event at this place sees itself, or an event that is not in the record.")
GCR_REFUSAL(10, "does visibility run in no ring?", "the lowest event that is on one",
            "Visibility runs in a ring through the event at this place.")

/* Asked of an explanation: 41 after 2, and 42 after 10. */
GCR_REFUSAL(41, "has the lent slice 384 entries of 16 bits or more?", "none",
            "The slice of events has fewer than 384 entries.")
GCR_REFUSAL(42, "is the predicate broken?", "none",
            "The predicate is met, so there is nothing to explain.")

/* Asked of a rehearsal, in this order. */
GCR_REFUSAL(20, "are there 1 to 8 sites?", "none",
            "The number of sites is not 1 to 8.")
GCR_REFUSAL(21, "is the script a multiple of 8 bytes, and at most 32,768?", "none",
            "The script's length is not a multiple of 8 of at most 32,768 bytes, which are 4,096 calls.")
GCR_REFUSAL(22, "has the record buffer 33,280 bytes or more?", "none",
            "The record buffer is shorter than 33,280 bytes.")
GCR_REFUSAL(23, "is the answer buffer at least as long as the script?", "none",
            "The answer buffer is shorter than the script.")
GCR_REFUSAL(40, "are the openings 132 bytes, with no value under a clear bit?", "none",
            "The openings are not 132 bytes, or hold a value under a clear bit.")

/* Asked of each call of a script, in this order; found in the answer of the call. */
GCR_REFUSAL(31, "is the call well formed: kind 1 to 4, and zero wherever the table of a call has 0?", "none",
            "The call is not well formed.")
GCR_REFUSAL(32, "put, get, delivery: is the site below the number of sites?", "none",
            "The call's site is not below the number of sites.")
GCR_REFUSAL(33, "put, get: is the object at most 31? Delivery: is the event a put that was done before?", "none",
            "The object is above 31, or the delivered event is not a put already done.")
GCR_REFUSAL(34, "put, get: are there fewer than 384 events?", "none",
            "The store has 384 events already.")
GCR_REFUSAL(35, "delivery: does the site not know the put yet?", "none",
            "The site already knows the delivered put.")
GCR_REFUSAL(36, "delivery: does the site's count of held puts reach the put's needs, for every site?", "none",
            "The site lacks a put that the delivered one needs.")

#undef GCR_REFUSAL
