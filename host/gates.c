/* Tries the gate: what is there to the last token, the clock's corner, refusals, and states that no
 * gate was ever in. All expected numbers are given by hand. */
#include "devvonur_gate.h"

#include <inttypes.h>
#include <stdio.h>
#include <stdlib.h>

static unsigned passed;

static int same(struct devvonur_gate one, struct devvonur_gate other)
{
    return one.rate == other.rate && one.burst == other.burst && one.frame == other.frame &&
           one.tokens == other.tokens && one.reading == other.reading;
}

static void fail(const char *name, struct devvonur_gate_answer found)
{
    struct devvonur_gate left = found.gate;
    fprintf(stderr,
            "gates: %s: code %" PRIu32 ", rate %" PRIu64 " burst %" PRIu64 " frame %" PRIu64 " tokens %" PRIu64
            " reading %" PRIu32 "\n",
            name, found.code, left.rate, left.burst, left.frame, left.tokens, left.reading);
    exit(EXIT_FAILURE);
}

static void check(const char *name, struct devvonur_gate_answer found, struct devvonur_gate gate, uint32_t code)
{
    if (found.code != code || !same(found.gate, gate)) {
        fail(name, found);
    }
    passed++;
}

/* An offer that is answered with this code and leaves these tokens and this reading; the gate after it. */
static struct devvonur_gate step(const char *name, struct devvonur_gate gate, uint64_t length, uint32_t reading,
                                 uint32_t code, uint64_t tokens, uint32_t stored)
{
    struct devvonur_gate_answer found = devvonur_gate_offer(gate, length, reading);
    gate.tokens = tokens;
    gate.reading = stored;
    check(name, found, gate, code);
    return gate;
}

static void opened(const char *name, uint64_t rate, uint64_t burst, uint64_t frame, uint64_t tokens)
{
    struct devvonur_gate gate = {rate, burst, frame, tokens, 77};
    check(name, devvonur_gate_open(rate, burst, frame, 77), gate, 0);
}

static void not_opened(const char *name, uint64_t rate, uint64_t burst, uint64_t frame)
{
    struct devvonur_gate none = {0, 0, 0, 0, 0};
    struct devvonur_gate_answer found = devvonur_gate_open(rate, burst, frame, 77);
    check(name, found, none, 61);
    check(name, devvonur_gate_offer(found.gate, 84, 78), none, 61);
}

static void openings(void)
{
    opened("the least numbers", 1, 84, 84, 672000);
    opened("the greatest numbers", 10000000, 1000000, 1542, 8000000000);
    opened("a largest frame as the burst", 5, 1542, 1542, 12336000);
    not_opened("rate 0", 0, 84, 84);
    not_opened("rate 10,000,001", 10000001, 84, 84);
    not_opened("burst 83", 1, 83, 84);
    not_opened("burst 1,000,001", 1, 1000001, 84);
    not_opened("frame 83", 1, 84, 83);
    not_opened("frame 1,543", 1, 2000, 1543);
    not_opened("a largest frame above the burst", 1, 84, 85);
    not_opened("nothing", 0, 0, 0);
    not_opened("the widest numbers", UINT64_MAX, UINT64_MAX, UINT64_MAX);
}

/* 84 bytes at 1,000 kbit/s take 672 µs; two of them are the burst. */
static const struct devvonur_gate small = {1000, 168, 84, 1344000, 0};

static void tokens(void)
{
    struct devvonur_gate gate = small;
    gate = step("the burst's first frame", gate, 84, 0, 0, 672000, 0);
    gate = step("its second", gate, 84, 0, 0, 0, 0);
    gate = step("one too many", gate, 84, 0, 1, 0, 0);
    gate = step("1 µs too soon", gate, 84, 671, 1, 671000, 671);
    gate = step("just in time", gate, 84, 672, 0, 0, 672);
    step("never above full", gate, 84, 4000000, 0, 672000, 4000000);
    gate = (struct devvonur_gate){1, 84, 84, 671998, 5};
    gate = step("one token too few", gate, 84, 6, 1, 671999, 6);
    step("and the last one", gate, 84, 7, 0, 0, 7);
    step("the longest time at the greatest rate", (struct devvonur_gate){10000000, 1000000, 1542, 8000000000, 1}, 1542,
         0, 0, 7987664000, 0);
    step("the longest time at rate 1", (struct devvonur_gate){1, 1000000, 1542, 0, 1}, 1542, 0, 0, 4282631295, 0);
}

static void corner(void)
{
    struct devvonur_gate gate = {1000, 168, 84, 0, UINT32_MAX};
    gate = step("1 µs round the corner", gate, 84, 0, 1, 1000, 0);
    gate = step("671 in all", gate, 84, 670, 1, 671000, 670);
    gate = step("672 in all", gate, 84, 671, 0, 0, 671);
    gate = step("a turn less 1 µs", gate, 84, 670, 0, 672000, 670);
    gate.tokens = 0;
    gate = step("a whole turn isn't seen", gate, 84, 670, 1, 0, 670);
    step("at the last reading", gate, 84, UINT32_MAX, 0, 672000, UINT32_MAX);
}

static void refused_frames(void)
{
    struct devvonur_gate gate = {1000, 168, 100, 8000, 50};
    const uint64_t lengths[] = {0, 1, 83, 101, 168, UINT32_MAX, UINT64_MAX};
    for (size_t at = 0; at < sizeof lengths / sizeof lengths[0]; at++) {
        step("a length out of range", gate, lengths[at], 900, 60, 8000, 50);
    }
    gate = step("the time since the stored reading counts", gate, 84, 714, 0, 0, 714);
    step("the largest", gate, 100, 1514, 0, 0, 1514);
}

static void refused_states(void)
{
    const struct devvonur_gate states[] = {
        {0, 168, 84, 0, 9},
        {10000001, 168, 84, 0, 9},
        {UINT64_MAX, 168, 84, 0, 9},
        {1000, 83, 84, 0, 9},
        {1000, 1000001, 84, 0, 9},
        {1000, UINT64_MAX, 84, UINT64_MAX, 9},
        {1000, UINT64_MAX / 8000 + 1, 84, 0, 9}, /* 8000 * burst rolls over */
        {1000, 168, 83, 0, 9},
        {1000, 2000, 1543, 0, 9},
        {1000, 168, 169, 0, 9},
        {1000, 168, UINT64_MAX, 0, 9},
        {1000, 168, 84, 1344001, 9},
        {1000, 168, 84, UINT64_MAX, 9},
        {UINT64_MAX, UINT64_MAX, UINT64_MAX, UINT64_MAX, UINT32_MAX},
        {0, 0, 0, 0, 0},
    };
    const uint64_t lengths[] = {84, 0, UINT64_MAX}; /* 61 comes before 60 */
    for (size_t at = 0; at < sizeof states / sizeof states[0]; at++) {
        for (size_t length = 0; length < sizeof lengths / sizeof lengths[0]; length++) {
            check("a state out of range", devvonur_gate_offer(states[at], lengths[length], 5000), states[at], 61);
        }
    }
    step("full is in range", small, 84, 0, 0, 672000, 0);
}

#define DRAWN_STATES 200000

static uint64_t draw(uint64_t *state)
{
    *state = *state * UINT64_C(6364136223846793005) + UINT64_C(1442695040888963407);
    return (*state ^ (*state >> 29)) >> (*state >> 58);
}

/* Any numbers whatever: a refusal leaves all of them, and what isn't refused is answered 0 or 1. */
static void any_numbers(void)
{
    uint64_t state = 1;
    unsigned gates = 0;
    for (unsigned round = 0; round < DRAWN_STATES; round++) {
        struct devvonur_gate gate = {draw(&state), draw(&state), draw(&state), draw(&state), (uint32_t)draw(&state)};
        uint64_t length = draw(&state);
        struct devvonur_gate_answer found = devvonur_gate_offer(gate, length, (uint32_t)draw(&state));
        int out = gate.rate < 1 || gate.rate > 10000000 || gate.burst < 84 || gate.burst > 1000000 || gate.frame < 84 ||
                  gate.frame > 1542 || gate.frame > gate.burst || gate.tokens > 8000 * gate.burst;
        int refused = out || length < 84 || length > gate.frame;
        gates += !refused;
        if (refused ? found.code != (out ? 61 : 60) || !same(found.gate, gate)
                    : found.code > 1 || found.gate.tokens > 8000 * gate.burst) {
            fail("any numbers", found);
        }
    }
    printf("gates: %u states of any numbers, %u of them offered a frame of theirs\n", DRAWN_STATES, gates);
}

int main(void)
{
    openings();
    tokens();
    corner();
    refused_frames();
    refused_states();
    any_numbers();
    printf("gates: %u cases passed\n", passed);
    return EXIT_SUCCESS;
}
