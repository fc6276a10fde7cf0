/*
 * Juvrada: the curves of a DeepMind 12 program, for a printer of sheets. Link target/staticlib/libjuvrada.a (x86-64).
 *
 * A block is the program's 242 bytes; parameter n is byte n. Every function but the taps', juvrada_curve_for_end and juvrada_bend takes it as a
 * pointer and a length, and all but the gates and the bars a code:
 *
 *   0, 1, 2   VCA, VCF, Mod envelope          9         low-pass filter
 *   3, 4      LFO 1, 2                        10        high-pass filter
 *   5, 6      LFO 1, 2, unipolar              11, 12    oscillator 1, 2
 *   7, 8      fade of LFO 1, 2                13        noise
 *
 * A position t runs from 0 to 1 along the curve. Any float is taken: one beyond an end is that end, and NaN is 0. A height is a number from
 * 0 to 1, never NaN.
 *
 * An LFO of shape 5 or 6, sample and hold or sample and glide, is drawn at 6 turns, or at the number of turns, 6 or 8,
 * that a function whose name ends in _turns takes. For every other curve the number is checked and changes nothing.
 *
 * Refusals, looked for in this order:
 *
 *   JUVRADA_BAD_BLOCK    the block is not JUVRADA_BLOCK bytes long
 *   JUVRADA_BAD_CODE     the code is above 13, 256 and more among them
 *   JUVRADA_BAD_TURNS    the number of turns is neither 6 nor 8, for any code; 262, whose low byte is 6, among them
 *   JUVRADA_BAD_STRIP    the strip, or the captions, are fewer than JUVRADA_MIN_STRIP or more than JUVRADA_MAX_STRIP
 *   JUVRADA_BAD_LEVEL    the wanted level is NaN, below 0 or above 1
 *
 * A refused call leaves everything lent to it as it was, and the other fields of its result are 0. Otherwise `refusal` is JUVRADA_ACCEPTED.
 * Where a result has a `count`, that many entries of the lent arrays are written, and those from `count` on are left as they were.
 *
 * Lent arrays must not overlap, neither each other nor the block, and no pointer may be null, not even one to an array of length 0. No function
 * keeps a pointer, allocates, or has state, so calls from several threads don't disturb each other.
 */
#ifndef JUVRADA_H
#define JUVRADA_H

#include <stddef.h>
#include <stdint.h>

#ifdef __cplusplus
extern "C" {
#endif

/* Bytes of a block. */
#define JUVRADA_BLOCK 242

/* The fewest and the most samples of a strip. */
#define JUVRADA_MIN_STRIP 2
#define JUVRADA_MAX_STRIP 4096

/* The most marks that a curve has, the most settings, the gates that are drawn, and the taps of an impulse train. */
#define JUVRADA_MAX_MARKS 8
#define JUVRADA_MAX_SETTINGS 8
#define JUVRADA_GATES 4
#define JUVRADA_TAPS 4

/* `refusal` */
#define JUVRADA_ACCEPTED 0
#define JUVRADA_BAD_BLOCK 1
#define JUVRADA_BAD_CODE 2
#define JUVRADA_BAD_STRIP 3
#define JUVRADA_BAD_LEVEL 4
#define JUVRADA_BAD_TURNS 5

/* Kinds of marks. The first four are the starts of segments, and captions have the same numbers. */
#define JUVRADA_MARK_ATTACK 0
#define JUVRADA_MARK_DECAY 1
#define JUVRADA_MARK_SUSTAIN 2
#define JUVRADA_MARK_RELEASE 3
#define JUVRADA_MARK_CORNER 4 /* a filter's corner */
#define JUVRADA_MARK_CYCLE 5  /* the end of a cycle */
#define JUVRADA_MARK_TAP 6    /* a tap */
#define JUVRADA_MARK_WIDTH 7  /* where a pulse falls */
#define JUVRADA_MARK_SWEEP 8  /* an end of that edge's sweep */

/* The caption of every sample of a curve that is no envelope. */
#define JUVRADA_NO_CAPTION 255

/* Kinds of scales. */
#define JUVRADA_SCALE_NORMALISED 0 /* no measure is published; `number` is 0 */
#define JUVRADA_SCALE_TURNS 1      /* `number` cycles */
#define JUVRADA_SCALE_OCTAVES 2    /* `number` octaves about the corner */

typedef struct {
    uint32_t refusal;
    uint32_t steps;
    float height;
} juvrada_height_result;

typedef struct {
    uint32_t refusal;
    uint32_t steps;
} juvrada_strip_result;

typedef struct {
    uint32_t refusal;
    uint32_t count;
} juvrada_count_result;

typedef struct {
    uint32_t refusal;
    float level;
} juvrada_rest_result;

typedef struct {
    uint32_t refusal;
    uint32_t kind;
    float number;
} juvrada_scale_result;

typedef struct {
    uint32_t refusal;
    uint32_t anchored;
} juvrada_anchored_result;

typedef struct {
    uint32_t refusal;
    uint32_t found;
    uint32_t byte;
    uint32_t tried;
} juvrada_curve_result;

/* The height of the curve at t, and the steps of the slew walk to it: 0 of everything but an LFO whose slew is not 0. */
juvrada_height_result juvrada_height(const uint8_t *block, size_t block_len, uint32_t code, float t);

/* Heights along the whole curve: sample i is the height at i / (out_len - 1), divided as floats. `steps` is the sum of the samples' steps. */
juvrada_strip_result juvrada_strip(const uint8_t *block, size_t block_len, uint32_t code, float *out, size_t out_len);

/*
 * The same heights, bit for bit, and the same refusals, with one walk along the whole strip where an LFO's slew is not 0: far sooner done.
 * `steps` is that of the one walk: one for each full step that ends short of the last sample's phase, and one for each sample; 191 + out_len
 * where one turn is drawn, 671 + out_len where six are, 863 + out_len where eight are. It is 0 of everything else.
 */
juvrada_strip_result juvrada_strip_once(const uint8_t *block, size_t block_len, uint32_t code, float *out, size_t out_len);

/* Where along the curve something happens, and what. A position may pass 1 by rounding. */
juvrada_count_result juvrada_marks(const uint8_t *block, size_t block_len, uint32_t code, float at[JUVRADA_MAX_MARKS],
                                   uint8_t kind[JUVRADA_MAX_MARKS]);

/* The height at which the curve does nothing: where a baseline is drawn. */
juvrada_rest_result juvrada_rest(const uint8_t *block, size_t block_len, uint32_t code);

/* What the curve's horizontal measures. */
juvrada_scale_result juvrada_scale(const uint8_t *block, size_t block_len, uint32_t code);

/* 1 where the left edge is a moment, as the start of a note is, and otherwise 0. */
juvrada_anchored_result juvrada_anchored(const uint8_t *block, size_t block_len, uint32_t code);

/*
 * Five of the functions above at a number of turns, 6 or 8. At 6 each answers as the one without it. At 8 an LFO of
 * shape 5 or 6 has eight marks, at 1/8, 2/8 and so on up to 1, and the scale is 8 turns; where its slew is not 0,
 * a height takes from 96 to 864 steps.
 */
juvrada_height_result juvrada_height_turns(const uint8_t *block, size_t block_len, uint32_t code, uint32_t turns,
                                           float t);

juvrada_strip_result juvrada_strip_turns(const uint8_t *block, size_t block_len, uint32_t code, uint32_t turns,
                                         float *out, size_t out_len);

juvrada_strip_result juvrada_strip_once_turns(const uint8_t *block, size_t block_len, uint32_t code, uint32_t turns,
                                              float *out, size_t out_len);

juvrada_count_result juvrada_marks_turns(const uint8_t *block, size_t block_len, uint32_t code, uint32_t turns,
                                         float at[JUVRADA_MAX_MARKS], uint8_t kind[JUVRADA_MAX_MARKS]);

juvrada_scale_result juvrada_scale_turns(const uint8_t *block, size_t block_len, uint32_t code, uint32_t turns);

/*
 * The settings that the curve is drawn from, in this order:
 *
 *   envelope     8   ends of the attack, the decay and the sustain, the sustain's level and the level at its end, bends of the attack, the
 *                    decay and the release
 *   LFO          5   shape (0 to 6: sine, triangle, square, ramp up, ramp down, sample and hold, sample and glide),
 *                    turns (6 of the last two, else 1), slew, unipolar, synced
 *   fade         1   where it ends
 *   filter       4   slope, resonance, span, pass (0 low, 1 high)
 *   oscillator   5   saw, pulse, width, sweep, level
 *   noise        1   level
 *
 * A flag is 0 or 1.
 */
juvrada_count_result juvrada_settings(const uint8_t *block, size_t block_len, uint32_t code, float out[JUVRADA_MAX_SETTINGS]);

/*
 * The caption of each sample of a strip of out_len: of an envelope the segment that the sample lies in, that is, the last whose mark is at or
 * before it; JUVRADA_NO_CAPTION of the other codes. So sample 0 is attack if the attack byte isn't 0, else decay if the decay byte isn't 0, else
 * sustain. Returns the refusal.
 */
uint32_t juvrada_captions(const uint8_t *block, size_t block_len, uint32_t code, uint8_t *out, size_t out_len);

/* The arpeggiator's gates, in steps of its clock: none if byte 160 is 0, otherwise four. */
juvrada_count_result juvrada_gates(const uint8_t *block, size_t block_len, float start[JUVRADA_GATES], float end[JUVRADA_GATES]);

/*
 * The bars that a page draws: each gate is one of its own, for the instrument strikes every step anew. So they are what juvrada_gates gives: none if
 * byte 160 is 0, otherwise four; at 255 from 0 to 1, 1 to 2, 2 to 3 and 3 to 4, each ending where the next one starts.
 */
juvrada_count_result juvrada_bars(const uint8_t *block, size_t block_len, float start[JUVRADA_GATES], float end[JUVRADA_GATES]);

/*
 * A curve byte for the sustain, so that its end, the fifth setting of an envelope with this sustain byte, lies within 1/512 of a wanted level. The
 * distance is that of the two numbers, with nothing rounded, and 1/512 itself is near enough. All 256 bytes are tried, from 0 upward: `found` is 1, with
 * the byte and `tried` one more than it; or it is 0, where no byte will do, with byte 0 and `tried` 256. A wanted level of -0 is 0.
 */
juvrada_curve_result juvrada_curve_for_end(uint8_t sustain, float wanted);

/*
 * The bend of a curve byte, from a chart: what an envelope has for the curve of its attack, decay or release, bit for bit. It differs from 2 to the power
 * (curve - 128) / 64 by at most one part in 1,048,576 of that power. Every byte has one: 0.25 at 0, 1 at 128, 3.9569118 at 255.
 */
float juvrada_bend(uint8_t curve);

/*
 * A delay's taps, as an impulse train: where each falls, how tall it is, and how many of the four are used, a number above 4 being 4. Any floats
 * are taken; a tap whose position or height is NaN adds nothing to the heights. They are never refused, and take no steps. An impulse train's rest is 0,
 * its scale is normalised, and it is anchored.
 */
juvrada_height_result juvrada_taps_height(const float at[JUVRADA_TAPS], const float tall[JUVRADA_TAPS], uint32_t used, float t);

juvrada_count_result juvrada_taps_marks(const float at[JUVRADA_TAPS], const float tall[JUVRADA_TAPS], uint32_t used,
                                        float mark_at[JUVRADA_MAX_MARKS], uint8_t kind[JUVRADA_MAX_MARKS]);

#ifdef __cplusplus
}
#endif

#endif
