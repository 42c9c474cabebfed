/* W-207's offer in plain C, by hand: the measure of the proved one's time. */
#include "../../host/devvonur_gate.h"

struct devvonur_gate_answer plain_gate_offer(struct devvonur_gate gate, uint64_t length, uint32_t reading);

static int refused(const struct devvonur_gate *gate)
{
    return gate->rate < 1 || gate->rate > DEVVONUR_GATE_MOST_RATE || gate->burst < DEVVONUR_GATE_LEAST_FRAME ||
           gate->burst > DEVVONUR_GATE_MOST_BURST || gate->frame < DEVVONUR_GATE_LEAST_FRAME ||
           gate->frame > DEVVONUR_GATE_MOST_FRAME || gate->frame > gate->burst ||
           gate->tokens > DEVVONUR_GATE_BYTE * gate->burst;
}

/* The numbers are set one by one: a gate that is changed and then copied whole takes longer. */
static struct devvonur_gate_answer after(const struct devvonur_gate *gate, uint64_t tokens, uint32_t reading,
                                         uint32_t code)
{
    return (struct devvonur_gate_answer){{gate->rate, gate->burst, gate->frame, tokens, reading}, code};
}

struct devvonur_gate_answer plain_gate_offer(struct devvonur_gate gate, uint64_t length, uint32_t reading)
{
    if (refused(&gate)) {
        return after(&gate, gate.tokens, gate.reading, DEVVONUR_GATE_REFUSED);
    }
    if (length < DEVVONUR_GATE_LEAST_FRAME || length > gate.frame) {
        return after(&gate, gate.tokens, gate.reading, DEVVONUR_GATE_FRAME_REFUSED);
    }
    /* At most 8,000,000,000 and 10,000,000 * 2^32 together: far below 2^64. */
    uint64_t full = DEVVONUR_GATE_BYTE * gate.burst;
    uint64_t there = gate.tokens + gate.rate * (uint32_t)(reading - gate.reading);
    if (there > full) {
        there = full;
    }
    uint64_t price = DEVVONUR_GATE_BYTE * length;
    if (price > there) {
        return after(&gate, there, reading, DEVVONUR_GATE_DROPPED);
    }
    return after(&gate, there - price, reading, DEVVONUR_GATE_PASSED);
}
