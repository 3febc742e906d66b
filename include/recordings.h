/*
 * Two recordings of one run compared, as a gateway and a worker each make one, whose clocks drift: whether they have the same calls, the rest of
 * the longer one after their longest shared beginning, and whether the second may be trusted on the word of the first.
 *
 * A recording is a history as in judge.h: an array of events, each four words, kind, thread, call number, value; at most 4,096 events. A recording is
 * refused with 10, 12 or 13 of the table in judge.h.
 *
 * Every call returns, and changes no word of a recording. `first` points to `first_words` words, `second` to `second_words` and `reply` to four, which
 * share no word with the recordings; all are aligned and not NULL, also where they have no words. Nothing is kept between calls. A call takes less than
 * 256 KB of stack.
 */
#ifndef RECORDINGS_H
#define RECORDINGS_H

#include <stddef.h>
#include <stdint.h>

#ifdef __cplusplus
extern "C" {
#endif

/* What the calls return. */
enum {
    RECORDINGS_SAME_CALLS = 0,       /* recordings_compare: every thread has the same events in the same order in both */
    RECORDINGS_OTHER_CALLS = 1,      /* recordings_compare: some thread has not */
    RECORDINGS_KEEP = 0,             /* recordings_keep_precedence: if the first is explained, so is the second */
    RECORDINGS_DO_NOT_KEEP = 1,      /* recordings_keep_precedence: one of the premises does not hold */
    RECORDINGS_REFUSED_LENGTH = 10,  /* the words are no multiple of 4, or more than 4,096 events */
    RECORDINGS_REFUSED_FORM = 12,    /* an event not of the form in judge.h */
    RECORDINGS_REFUSED_FOLLOWS = 13  /* a thread already busy, an end without its start, a call number started twice */
};

/* Compares two recordings; the first is checked first. On a refusal reply[0] is 1 or 2 for the recording that was refused; else it stays.
 * reply[1] is 1 or 2 for the recording of which the rest is, the longer one, the first if they are equally long, and reply[2] the word of it at
 * which the rest begins: four for each event of their longest shared beginning. On a refusal the rest is the empty end of the first: reply[1] is 1
 * and reply[2] the words of the first (4,294,967,295 if it has more). reply[3] stays. */
uint32_t recordings_compare(const uint32_t *first, size_t first_words, const uint32_t *second, size_t second_words, uint32_t reply[4]);

/* Whether the second may be trusted on the word of the first: neither is refused, they have the same calls, and everything that ended before
 * something started in the second also did so in the first. Then the second is explained if the first is. */
uint32_t recordings_keep_precedence(const uint32_t *first, size_t first_words, const uint32_t *second, size_t second_words);

#ifdef __cplusplus
}
#endif

#endif
