/* A sender with a gate: offers frames by a clock that rolls over, and prints what became of each.
 *
 * The flow was registered with 1,000 kbit/s, a burst of 3,084 bytes and frames of 1,542 at most. Such
 * a frame takes 12,336 µs at this rate, and two of them are the burst. Ends with 0 unless printing
 * fails. */
#include "devvonur_gate.h"

#include <inttypes.h>
#include <stdio.h>
#include <stdlib.h>

/* A frame to be sent, so many µs after the one before. */
struct frame {
    uint64_t length;
    uint32_t wait;
};

static const struct frame frames[] = {
    {1542, 0}, {1542, 0}, {1542, 0},     /* the burst, and one too many */
    {1542, 12335}, {1542, 1},            /* 1 µs too soon, then just in time, past the clock's corner */
    {1600, 12336}, {84, 0}, {84, 10000}, /* too long; the short ones pass */
};

int main(void)
{
    uint32_t clock = UINT32_MAX - 12000;
    struct devvonur_gate_answer answer = devvonur_gate_open(1000, 3084, 1542, clock);
    if (answer.code != DEVVONUR_GATE_PASSED) {
        fprintf(stderr, "gate: no order line may have these numbers\n");
        return EXIT_FAILURE;
    }
    for (size_t at = 0; at < sizeof frames / sizeof frames[0]; at++) {
        clock += frames[at].wait; /* rolls over as the counter does */
        answer = devvonur_gate_offer(answer.gate, frames[at].length, clock);
        const char *became = answer.code == DEVVONUR_GATE_PASSED    ? "passed"
                             : answer.code == DEVVONUR_GATE_DROPPED ? "dropped"
                                                                    : "refused";
        printf("%10" PRIu32 " µs: %4" PRIu64 " bytes %s, %" PRIu64 " tokens left\n", clock, frames[at].length,
               became, answer.gate.tokens);
    }
    return fflush(stdout) == 0 && !ferror(stdout) ? EXIT_SUCCESS : EXIT_FAILURE;
}
