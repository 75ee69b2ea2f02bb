/* Pinionclay: what flash code protection on dsPIC33E/PIC24E parts lets each segment's code do, event by event.
 *
 * description: page words, GS pages, AS pages, keys (0 absent, anything else present), auxiliary vector.
 * state:       PC (any number), IOPUWR, stopped, FGS, FAS, then the 64 latches. A flag is set where its number is not 0, and a
 *              byte is the number's low 8 bits. A run that answers 0, with count 0 too, and a step that answers 0 to 5 write
 *              them back as 0 or 1 and below 256.
 * gs, aux:     the words of the two flash arrays, each of pages x page words.
 * A word, a latch's too, is the number's low 24 bits; one that is written has top byte 0, and any other stays as lent.
 *
 * An event is three numbers: kind, a, b; what a kind does not use is 0. An answer is two: number, value. The enums below
 * name the kinds and the numbers; README.md says more of them.
 *
 * What the pointers of one call point at may not overlap, count and value included, and is aligned for its type. A pointer
 * with length 0 is not followed; no other may be NULL. Nothing is kept between calls, so threads may call at once on
 * different arrays. */
#ifndef PINIONCLAY_H
#define PINIONCLAY_H

#include <stddef.h>
#include <stdint.h>

#ifdef __cplusplus
extern "C" {
#endif

enum pinionclay_kind {
    PINIONCLAY_NEXT = 1,
    PINIONCLAY_FLOW_CHANGE = 2,      /* a: target */
    PINIONCLAY_INTERRUPT = 3,        /* a: vector, 0 to 253 */
    PINIONCLAY_TABLE_READ = 4,       /* a: address; value: the word */
    PINIONCLAY_TABLE_WRITE = 5,      /* a: address; b: word */
    PINIONCLAY_PROGRAM_ROW = 6,      /* a: address; value: the bits not set */
    PINIONCLAY_ERASE_PAGE = 7,       /* a: address */
    PINIONCLAY_ERASE_GENERAL = 8,    /* GS and VS, and clear FGS */
    PINIONCLAY_ERASE_AUXILIARY = 9,  /* AS, and clear FAS */
    PINIONCLAY_PROGRAM_FGS = 10,     /* a: byte */
    PINIONCLAY_PROGRAM_FAS = 11,     /* a: byte */
    PINIONCLAY_POWER_ON = 12
};

enum pinionclay_answer {
    PINIONCLAY_DONE = 0,
    PINIONCLAY_ZEROED = 1,
    PINIONCLAY_NOT_STARTED = 2,
    PINIONCLAY_SECURITY_RESET = 3,
    PINIONCLAY_ADDRESS_TRAP = 4,
    PINIONCLAY_STOPPED = 5,
    PINIONCLAY_MALFORMED_EVENT = 6,
    PINIONCLAY_BAD_DESCRIPTION = 7,
    PINIONCLAY_WRONG_FLASH_LENGTH = 8,
    PINIONCLAY_BAD_LIST = 9
};

/* Runs a list of at most 4,096 events up to its end, the limit (any number, 0 too), or the first answer 3 or 4. The result is
 * the run's own answer: 0, with the count of events answered in *count and their answers in the first 2 x *count slots, the
 * later ones as they were; or 7, 8 or 9, with *count 0 and every number of every array as it was. events_length is 3 for each
 * event, and slots_length at least 2 for each event of the list, whatever the limit. */
uint32_t pinionclay_run(const uint32_t description[5], uint32_t state[69], uint32_t *gs, size_t gs_length, uint32_t *aux,
                        size_t aux_length, const uint32_t *events, size_t events_length, size_t limit, uint32_t *slots,
                        size_t slots_length, size_t *count);

/* Carries out one event. The result is its answer's number, and *value the answer's value. On 6, 7 or 8 *value is 0, and every
 * number of every array is as it was. */
uint32_t pinionclay_step(const uint32_t description[5], uint32_t state[69], uint32_t *gs, size_t gs_length, uint32_t *aux,
                         size_t aux_length, uint32_t kind, uint32_t a, uint32_t b, uint32_t *value);

#ifdef __cplusplus
}
#endif

#endif
