/* Devvonur: the gate at a sender, which holds it to the rate, burst and largest frame that it
 * registered. C11, nothing but this header and libsender_gate.a. */
#ifndef DEVVONUR_GATE_H
#define DEVVONUR_GATE_H

#include <stdint.h>

#ifdef __cplusplus
extern "C" {
#endif

/* Ranges, those of an order line. A frame's length is in bytes on the wire, with preamble, tag and
 * gap: 20 more than Ethernet's 64 to 1,522. */
#define DEVVONUR_GATE_MOST_RATE UINT64_C(10000000) /* from 1 */
#define DEVVONUR_GATE_MOST_BURST UINT64_C(1000000) /* from the largest frame */
#define DEVVONUR_GATE_LEAST_FRAME UINT64_C(84)
#define DEVVONUR_GATE_MOST_FRAME UINT64_C(1542)
#define DEVVONUR_GATE_BYTE UINT64_C(8000) /* tokens for a byte */

/* What became of an opening or an offer. */
enum devvonur_gate_code {
    DEVVONUR_GATE_PASSED = 0,         /* opened; or send this frame, its tokens are taken */
    DEVVONUR_GATE_DROPPED = 1,        /* don't send it, its tokens aren't there */
    DEVVONUR_GATE_FRAME_REFUSED = 60, /* a frame below 84 bytes or above the largest */
    DEVVONUR_GATE_REFUSED = 61        /* rate, burst or largest frame out of range, a largest frame above
                                       * the burst, or tokens above full; comes before 60 */
};

/* A gate, all of it. The caller may read every field, and writes none. */
struct devvonur_gate {
    uint64_t rate;    /* kbit/s, as registered */
    uint64_t burst;   /* bytes, as registered */
    uint64_t frame;   /* the largest frame, bytes, as registered */
    uint64_t tokens;  /* what was there after the last offer, 8000ths of a byte; full is 8000 * burst */
    uint32_t reading; /* the clock at the opening, or at the last offer that passed or was dropped */
};

struct devvonur_gate_answer {
    struct devvonur_gate gate; /* the gate from now on */
    uint32_t code;             /* one of the above */
};

/* A full gate at a reading of the clock. Refused (61): there is no gate; all numbers of the struct are
 * 0, and whatever is offered to it is 61 too.
 *
 * A gate that is opened again is full again. Open one for each registered flow, once, and again only
 * when the flow was changed or registered anew: who opens it before every burst sends without limit. */
struct devvonur_gate_answer devvonur_gate_open(uint64_t rate, uint64_t burst, uint64_t frame,
                                               uint32_t reading);

/* A frame of this length offered at a reading of the clock. First rate * the µs since gate.reading
 * are added, never above full, and the reading is stored. Then the frame passes (0) if 8000 * length
 * is there, which is taken, or is dropped (1). Refused (60, 61): the gate comes back as it was given,
 * its reading too. Any struct whatever may be given.
 *
 * The clock counts µs in 32 bits and goes from 4,294,967,295 to 0; the time passed is taken round that
 * corner. It must not go back: a reading just before the stored one counts as nearly a turn's time,
 * and more passes than was registered. With a clock that doesn't go back, and nobody else writing the
 * gate, what passes conforms to rate and burst over every window of time.
 *
 * A turn takes 71 minutes and 35 seconds. Where stored readings are a turn or more apart, whole turns
 * go unseen: less is added than was earned, never more. Where they are less than a turn apart, a
 * frame that isn't refused always passes if ceil(8000 * length / rate) µs or more have gone by since
 * the last one that passed, and so does every one before any has passed.
 *
 * Both calls take and give values: nothing is lent, kept, allocated or freed. The caller owns the gate
 * and puts the answer's in its place before the next offer. One writer only: who offers to two copies
 * of a gate, or from two threads at once, lets pass twice what is there once. Calls from several
 * threads at once are fine on gates that are apart. */
struct devvonur_gate_answer devvonur_gate_offer(struct devvonur_gate gate, uint64_t length,
                                                uint32_t reading);

#ifdef __cplusplus
}
#endif

#endif
