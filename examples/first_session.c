/* The first session of README.md on the bench device, from C: AS at high security, code running at 0x000400 in GS. */
#include <inttypes.h>
#include <stdio.h>

#include "pinionclay.h"

enum { GENERAL_WORDS = 10 * 512, AUXILIARY_WORDS = 4 * 512, EVENTS = 3, STATE_NUMBERS = 69 };

static const uint32_t bench[5] = {512, 10, 4, 1, 0x7FFFEA};

static void blank(uint32_t *words, size_t length) {
    for (size_t at = 0; at < length; at++) words[at] = 0xFFFFFF;
}

int main(void) {
    static uint32_t general[GENERAL_WORDS], auxiliary[AUXILIARY_WORDS];
    uint32_t state[STATE_NUMBERS] = {0x000400, 0, 0, 0x03, 0x31};
    const uint32_t events[3 * EVENTS] = {
        PINIONCLAY_FLOW_CHANGE, 0x000500, 0,
        PINIONCLAY_TABLE_READ,  0x7FF000, 0,
        PINIONCLAY_FLOW_CHANGE, 0x7FFFBE, 0,
    };
    uint32_t slots[2 * EVENTS] = {0};
    size_t count;
    uint32_t value;

    blank(general, GENERAL_WORDS);
    blank(auxiliary, AUXILIARY_WORDS);
    blank(state + 5, STATE_NUMBERS - 5);

    uint32_t answer = pinionclay_run(bench, state, general, GENERAL_WORDS, auxiliary, AUXILIARY_WORDS, events, 3 * EVENTS,
                                     EVENTS, slots, 2 * EVENTS, &count);
    printf("run: answer %" PRIu32 ", %zu events\n", answer, count);
    for (size_t event = 0; event < count; event++)
        printf("kind %" PRIu32 " at 0x%06" PRIX32 ": answer %" PRIu32 ", value %" PRIu32 "\n", events[3 * event],
               events[3 * event + 1], slots[2 * event], slots[2 * event + 1]);
    printf("PC 0x%06" PRIX32 ", IOPUWR %" PRIu32 "\n", state[0], state[1]);

    answer = pinionclay_step(bench, state, general, GENERAL_WORDS, auxiliary, AUXILIARY_WORDS, PINIONCLAY_TABLE_READ,
                             0x000100, 0, &value);
    printf("step, read 0x000100: answer %" PRIu32 ", value 0x%06" PRIX32 "\n", answer, value);
    return 0;
}
