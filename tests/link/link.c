/* Calls every function of the static library from C. Prints each expectation that fails; status 0 where none does. */
#include "juvrada.h"
#include <stdio.h>
#include <string.h>

static int failures = 0;

#define EXPECT(condition)                                                \
    do {                                                                 \
        if (!(condition)) {                                              \
            printf("link.c, line %d: not so: %s\n", __LINE__, #condition); \
            failures += 1;                                               \
        }                                                                \
    } while (0)

/* The empty program. */
static uint8_t block[JUVRADA_BLOCK];

static void heights(void) {
    /* The fade of 0 is over at once. */
    juvrada_height_result r = juvrada_height(block, sizeof block, 7, 0.0f);
    EXPECT(r.refusal == JUVRADA_ACCEPTED && r.steps == 0 && r.height == 1.0f);
    /* A slewed sine. */
    block[6] = 1;
    r = juvrada_height(block, sizeof block, 3, 1.0f);
    EXPECT(r.refusal == JUVRADA_ACCEPTED && r.steps == 192);
    r = juvrada_height(block, sizeof block, 3, -7.0f);
    EXPECT(r.refusal == JUVRADA_ACCEPTED && r.steps == 96);
    block[6] = 0;
    r = juvrada_height(block, 241, 14, 0.0f);
    EXPECT(r.refusal == JUVRADA_BAD_BLOCK && r.steps == 0 && r.height == 0.0f);
    r = juvrada_height(block, sizeof block, 14, 0.0f);
    EXPECT(r.refusal == JUVRADA_BAD_CODE && r.steps == 0 && r.height == 0.0f);
    /* A code that is no byte is not read as its low byte. */
    r = juvrada_height(block, sizeof block, 256, 0.0f);
    EXPECT(r.refusal == JUVRADA_BAD_CODE && r.steps == 0 && r.height == 0.0f);
    r = juvrada_height(block, sizeof block, UINT32_MAX, 0.0f);
    EXPECT(r.refusal == JUVRADA_BAD_CODE && r.steps == 0 && r.height == 0.0f);
}

static void strips(void) {
    static const float triangle[5] = {0.0f, 0.5f, 1.0f, 0.5f, 0.0f};
    float out[6] = {9.0f, 9.0f, 9.0f, 9.0f, 9.0f, 9.0f};
    block[9] = 1;
    juvrada_strip_result r = juvrada_strip(block, sizeof block, 4, out, 5);
    EXPECT(r.refusal == JUVRADA_ACCEPTED && r.steps == 0);
    EXPECT(memcmp(out, triangle, sizeof triangle) == 0 && out[5] == 9.0f);
    block[13] = 1;
    r = juvrada_strip(block, sizeof block, 4, out, 2);
    EXPECT(r.refusal == JUVRADA_ACCEPTED && r.steps == 96 + 192);
    block[9] = block[13] = 0;
    out[0] = 9.0f;
    r = juvrada_strip(block, sizeof block, 4, out, 1);
    EXPECT(r.refusal == JUVRADA_BAD_STRIP && r.steps == 0 && out[0] == 9.0f);
}

/* One walk along the strip: the heights of the plain engine, bit for bit, and its own steps. */
static void strips_once(void) {
    static float plain[JUVRADA_MAX_STRIP], once[JUVRADA_MAX_STRIP + 1];
    for (unsigned shape = 0; shape < 7; shape++) {
        block[2] = shape;
        block[6] = 200;
        once[4000] = 9.0f;
        juvrada_strip_result p = juvrada_strip(block, sizeof block, 5, plain, 4000);
        juvrada_strip_result r = juvrada_strip_once(block, sizeof block, 5, once, 4000);
        EXPECT(p.refusal == JUVRADA_ACCEPTED && r.refusal == JUVRADA_ACCEPTED && r.steps == (shape < 5 ? 191 : 671) + 4000);
        EXPECT(memcmp(once, plain, 4000 * sizeof *plain) == 0 && once[4000] == 9.0f);
    }
    block[2] = block[6] = 0;
    once[0] = 9.0f;
    juvrada_strip_result r = juvrada_strip_once(block, sizeof block, 3, once, 2);
    EXPECT(r.refusal == JUVRADA_ACCEPTED && r.steps == 0 && once[0] == 0.5f);
    once[0] = 9.0f;
    r = juvrada_strip_once(block, 241, 14, once, 1);
    EXPECT(r.refusal == JUVRADA_BAD_BLOCK && r.steps == 0 && once[0] == 9.0f);
    r = juvrada_strip_once(block, sizeof block, 259, once, 1);
    EXPECT(r.refusal == JUVRADA_BAD_CODE && r.steps == 0 && once[0] == 9.0f);
    r = juvrada_strip_once(block, sizeof block, 3, once, JUVRADA_MAX_STRIP + 1);
    EXPECT(r.refusal == JUVRADA_BAD_STRIP && r.steps == 0 && once[0] == 9.0f);
}

static void marks(void) {
    float at[JUVRADA_MAX_MARKS] = {9.0f, 9.0f, 9.0f, 9.0f, 9.0f, 9.0f, 9.0f, 9.0f};
    uint8_t kind[JUVRADA_MAX_MARKS] = {9, 9, 9, 9, 9, 9, 9, 9};
    juvrada_count_result r = juvrada_marks(block, sizeof block, 0, at, kind);
    EXPECT(r.refusal == JUVRADA_ACCEPTED && r.count == 4);
    EXPECT(at[0] == 0.0f && at[1] == 0.0f && at[2] == 0.0f && at[3] == 1.0f);
    EXPECT(kind[0] == JUVRADA_MARK_ATTACK && kind[1] == JUVRADA_MARK_DECAY && kind[2] == JUVRADA_MARK_SUSTAIN);
    EXPECT(kind[3] == JUVRADA_MARK_RELEASE);
    for (size_t i = 4; i < JUVRADA_MAX_MARKS; i++) EXPECT(at[i] == 9.0f && kind[i] == 9);
    r = juvrada_marks(block, 243, 0, at, kind);
    EXPECT(r.refusal == JUVRADA_BAD_BLOCK && r.count == 0 && at[3] == 1.0f && kind[3] == JUVRADA_MARK_RELEASE);
}

static void others(void) {
    juvrada_rest_result rest = juvrada_rest(block, sizeof block, 9);
    EXPECT(rest.refusal == JUVRADA_ACCEPTED && rest.level == 48.0f / 60.0f);
    juvrada_scale_result scale = juvrada_scale(block, sizeof block, 10);
    EXPECT(scale.refusal == JUVRADA_ACCEPTED && scale.kind == JUVRADA_SCALE_OCTAVES && scale.number == 6.0f);
    juvrada_anchored_result anchored = juvrada_anchored(block, sizeof block, 9);
    EXPECT(anchored.refusal == JUVRADA_ACCEPTED && anchored.anchored == 1);
    anchored = juvrada_anchored(block, sizeof block, 13);
    EXPECT(anchored.refusal == JUVRADA_ACCEPTED && anchored.anchored == 0);
    anchored = juvrada_anchored(block, sizeof block, 255);
    EXPECT(anchored.refusal == JUVRADA_BAD_CODE && anchored.anchored == 0);
}

/* At a number of turns: of sample and hold that many are drawn, of a triangle one. */
static void heights_turns(void) {
    block[2] = 5;
    juvrada_height_result r = juvrada_height_turns(block, sizeof block, 3, 8, 1.0f);
    EXPECT(r.refusal == JUVRADA_ACCEPTED && r.steps == 0 && r.height == 0.72f);
    r = juvrada_height_turns(block, sizeof block, 5, 8, 0.125f);
    EXPECT(r.refusal == JUVRADA_ACCEPTED && r.steps == 0 && r.height == 0.18f);
    r = juvrada_height_turns(block, sizeof block, 3, 6, 1.0f);
    EXPECT(r.refusal == JUVRADA_ACCEPTED && r.steps == 0 && r.height == 0.31f);
    block[6] = 1;
    EXPECT(juvrada_height_turns(block, sizeof block, 3, 8, 0.0f).steps == 96);
    EXPECT(juvrada_height_turns(block, sizeof block, 3, 8, 1.0f).steps == 864);
    EXPECT(juvrada_height_turns(block, sizeof block, 3, 6, 1.0f).steps == 672);
    block[2] = 1;
    EXPECT(juvrada_height_turns(block, sizeof block, 3, 8, 1.0f).steps == 192);
    block[2] = block[6] = 0;
}

typedef juvrada_strip_result engine(const uint8_t *, size_t, uint32_t, uint32_t, float *, size_t);
static engine *const engines[] = {juvrada_strip_turns, juvrada_strip_once_turns};

static void strips_turns(void) {
    static const float six[5] = {0.72f, 0.18f, 0.41f, 0.08f, 0.31f}, eight[5] = {0.72f, 0.95f, 0.08f, 0.31f, 0.72f};
    float out[6] = {9.0f, 9.0f, 9.0f, 9.0f, 9.0f, 9.0f};
    block[9] = 5;
    for (size_t e = 0; e < 2; e++) {
        juvrada_strip_result r = engines[e](block, sizeof block, 4, 6, out, 5);
        EXPECT(r.refusal == JUVRADA_ACCEPTED && r.steps == 0);
        EXPECT(memcmp(out, six, sizeof six) == 0 && out[5] == 9.0f);
        r = engines[e](block, sizeof block, 4, 8, out, 5);
        EXPECT(r.refusal == JUVRADA_ACCEPTED && r.steps == 0);
        EXPECT(memcmp(out, eight, sizeof eight) == 0 && out[5] == 9.0f);
    }
    /* The steps with slew: of each sample by itself, and of one walk. */
    static const uint32_t plain[3] = {192, 672, 864}, once[3] = {191, 671, 863};
    static float samples[2][JUVRADA_MAX_STRIP];
    for (unsigned i = 0; i < 3; i++) {
        uint32_t turns = i == 1 ? 6 : 8;
        block[9] = i == 0 ? 4 : 6;
        block[13] = 200;
        EXPECT(juvrada_strip_turns(block, sizeof block, 6, turns, samples[0], 2).steps == 96 + plain[i]);
        for (size_t e = 0; e < 2; e++) {
            juvrada_strip_result r = engines[e](block, sizeof block, 6, turns, samples[e], 4000);
            EXPECT(r.refusal == JUVRADA_ACCEPTED && (e == 0 || r.steps == once[i] + 4000));
        }
        EXPECT(memcmp(samples[0], samples[1], 4000 * sizeof(float)) == 0);
    }
    block[9] = block[13] = 0;
}

static void marks_turns(void) {
    float at[JUVRADA_MAX_MARKS] = {9.0f, 9.0f, 9.0f, 9.0f, 9.0f, 9.0f, 9.0f, 9.0f};
    uint8_t kind[JUVRADA_MAX_MARKS] = {9, 9, 9, 9, 9, 9, 9, 9};
    block[2] = 6;
    for (uint32_t turns = 6; turns <= 8; turns += 2) {
        juvrada_count_result r = juvrada_marks_turns(block, sizeof block, 3, turns, at, kind);
        EXPECT(r.refusal == JUVRADA_ACCEPTED && r.count == turns);
        for (uint32_t c = 1; c <= turns; c++)
            EXPECT(at[c - 1] == (float)c / (float)turns && kind[c - 1] == JUVRADA_MARK_CYCLE);
        for (uint32_t c = turns; c < JUVRADA_MAX_MARKS; c++) EXPECT(at[c] == 9.0f && kind[c] == 9);
        juvrada_scale_result scale = juvrada_scale_turns(block, sizeof block, 3, turns);
        EXPECT(scale.refusal == JUVRADA_ACCEPTED && scale.kind == JUVRADA_SCALE_TURNS && scale.number == (float)turns);
        scale = juvrada_scale_turns(block, sizeof block, 4, turns);
        EXPECT(scale.refusal == JUVRADA_ACCEPTED && scale.kind == JUVRADA_SCALE_TURNS && scale.number == 1.0f);
    }
    block[2] = 0;
}

/* A block of this length, a code, a number of turns and a strip that the functions with turns refuse. */
static void refused(size_t len, uint32_t code, uint32_t turns, size_t n, uint32_t refusal) {
    float out[2] = {9.0f, 9.0f}, at[JUVRADA_MAX_MARKS] = {9.0f};
    uint8_t kind[JUVRADA_MAX_MARKS] = {9};
    for (size_t e = 0; e < 2; e++) {
        juvrada_strip_result r = engines[e](block, len, code, turns, out, n);
        EXPECT(r.refusal == refusal && r.steps == 0 && out[0] == 9.0f && out[1] == 9.0f);
    }
    if (refusal == JUVRADA_BAD_STRIP)
        return;
    juvrada_height_result h = juvrada_height_turns(block, len, code, turns, 1.0f);
    EXPECT(h.refusal == refusal && h.steps == 0 && h.height == 0.0f);
    juvrada_count_result c = juvrada_marks_turns(block, len, code, turns, at, kind);
    EXPECT(c.refusal == refusal && c.count == 0 && at[0] == 9.0f && kind[0] == 9);
    for (size_t i = 1; i < JUVRADA_MAX_MARKS; i++) EXPECT(at[i] == 0.0f && kind[i] == 0);
    juvrada_scale_result s = juvrada_scale_turns(block, len, code, turns);
    EXPECT(s.refusal == refusal && s.kind == 0 && s.number == 0.0f);
}

static void refusals_turns(void) {
    /* The block, the code, the turns, the strip. */
    refused(241, 14, 7, 1, JUVRADA_BAD_BLOCK);
    refused(sizeof block, 14, 7, 1, JUVRADA_BAD_CODE);
    refused(sizeof block, 3, 7, 1, JUVRADA_BAD_TURNS);
    refused(sizeof block, 3, 8, 1, JUVRADA_BAD_STRIP);
    refused(sizeof block, 3, 6, 0, JUVRADA_BAD_STRIP);
    /* An envelope has no turns, and they are refused all the same. */
    refused(sizeof block, 0, 7, 1, JUVRADA_BAD_TURNS);
    refused(sizeof block, 0, 8, 1, JUVRADA_BAD_STRIP);
    /* A number that is no byte is not read as its low byte. */
    static const uint32_t turns[] = {0, 1, 5, 7, 9, 262, 264, UINT32_MAX};
    for (size_t i = 0; i < sizeof turns / sizeof *turns; i++) refused(sizeof block, 3, turns[i], 2, JUVRADA_BAD_TURNS);
}

static void settings(void) {
    static const float envelope[JUVRADA_MAX_SETTINGS] = {0.0f, 0.0f, 1.0f, 0.0f, 0.0f, 0.25f, 0.25f, 0.25f};
    float out[JUVRADA_MAX_SETTINGS] = {0};
    juvrada_count_result r = juvrada_settings(block, sizeof block, 2, out);
    EXPECT(r.refusal == JUVRADA_ACCEPTED && r.count == 8);
    for (size_t i = 0; i < JUVRADA_MAX_SETTINGS; i++) EXPECT(out[i] == envelope[i]);
    r = juvrada_settings(block, sizeof block, 13, out);
    EXPECT(r.refusal == JUVRADA_ACCEPTED && r.count == 1 && out[0] == 0.0f && out[2] == 1.0f);
}

/* The captions of the VCF envelope with these attack and decay bytes, at its start, its middle and its end. */
static void captioned(uint8_t attack, uint8_t decay, uint8_t start, uint8_t middle) {
    uint8_t out[4] = {9, 9, 9, 9};
    block[62] = attack;
    block[63] = decay;
    EXPECT(juvrada_captions(block, sizeof block, 1, out, 3) == JUVRADA_ACCEPTED);
    EXPECT(out[0] == start && out[1] == middle && out[2] == JUVRADA_MARK_RELEASE && out[3] == 9);
    block[62] = block[63] = 0;
}

static void captions(void) {
    captioned(0, 0, JUVRADA_MARK_SUSTAIN, JUVRADA_MARK_SUSTAIN);
    captioned(0, 1, JUVRADA_MARK_DECAY, JUVRADA_MARK_SUSTAIN);
    captioned(0, 255, JUVRADA_MARK_DECAY, JUVRADA_MARK_DECAY);
    captioned(1, 0, JUVRADA_MARK_ATTACK, JUVRADA_MARK_SUSTAIN);
    captioned(255, 255, JUVRADA_MARK_ATTACK, JUVRADA_MARK_DECAY);
    uint8_t out[4] = {9, 9, 9, 9};
    EXPECT(juvrada_captions(block, sizeof block, 3, out, 2) == JUVRADA_ACCEPTED);
    EXPECT(out[0] == JUVRADA_NO_CAPTION && out[1] == JUVRADA_NO_CAPTION && out[2] == 9);
    EXPECT(juvrada_captions(block, 241, 14, out + 2, 1) == JUVRADA_BAD_BLOCK && out[2] == 9);
    EXPECT(juvrada_captions(block, sizeof block, 256, out + 2, 1) == JUVRADA_BAD_CODE && out[2] == 9);
    EXPECT(juvrada_captions(block, sizeof block, 1, out + 2, 1) == JUVRADA_BAD_STRIP && out[2] == 9);
    EXPECT(juvrada_captions(block, sizeof block, 1, out, 0) == JUVRADA_BAD_STRIP && out[0] == JUVRADA_NO_CAPTION);
}

typedef juvrada_count_result stretches(const uint8_t *, size_t, float *, float *);

/* The gates, or the bars, which are the gates. */
static void gates(stretches *find) {
    float start[JUVRADA_GATES] = {9.0f, 9.0f, 9.0f, 9.0f}, end[JUVRADA_GATES] = {9.0f, 9.0f, 9.0f, 9.0f};
    juvrada_count_result r = find(block, sizeof block, start, end);
    EXPECT(r.refusal == JUVRADA_ACCEPTED && r.count == 0 && start[0] == 9.0f && end[0] == 9.0f);
    block[160] = 255;
    r = find(block, 241, start, end);
    EXPECT(r.refusal == JUVRADA_BAD_BLOCK && r.count == 0 && start[0] == 9.0f && end[0] == 9.0f);
    r = find(block, sizeof block, start, end);
    EXPECT(r.refusal == JUVRADA_ACCEPTED && r.count == 4);
    for (size_t i = 0; i < JUVRADA_GATES; i++) EXPECT(start[i] == (float)i && end[i] == (float)(i + 1));
    block[160] = 51;
    r = find(block, sizeof block, start, end);
    EXPECT(r.refusal == JUVRADA_ACCEPTED && r.count == 4);
    for (size_t i = 0; i < JUVRADA_GATES; i++) EXPECT(start[i] == (float)i && end[i] == (float)i + 0.2f);
    block[160] = 0;
}

/* The float of a bit pattern. */
static float bits(uint32_t b) {
    float x;
    memcpy(&x, &b, sizeof x);
    return x;
}

static void curves(void) {
    /* Sustain 0 ends at 0 at every curve byte up to 127. */
    juvrada_curve_result r = juvrada_curve_for_end(0, 0.0f);
    EXPECT(r.refusal == JUVRADA_ACCEPTED && r.found == 1 && r.byte < 128 && r.tried == r.byte + 1);
    r = juvrada_curve_for_end(0, -0.0f);
    EXPECT(r.refusal == JUVRADA_ACCEPTED && r.found == 1 && r.byte < 128 && r.tried == r.byte + 1);
    /* The last byte alone ends at 1. */
    r = juvrada_curve_for_end(0, 1.0f);
    EXPECT(r.refusal == JUVRADA_ACCEPTED && r.found == 1 && r.byte == 255 && r.tried == 256);
    /* The difference of byte 14 is 1/512 as an f32, and more as a number. */
    r = juvrada_curve_for_end(1, bits(0x3b1c3855));
    EXPECT(r.refusal == JUVRADA_ACCEPTED && r.found == 1 && r.byte > 14 && r.tried == r.byte + 1);
    /* From byte 128 on the end of sustain 0 rises by 2/255 a byte: a level midway is farther than 1/512 from both. */
    r = juvrada_curve_for_end(0, 2.0f / 255.0f);
    EXPECT(r.refusal == JUVRADA_ACCEPTED && r.found == 0 && r.byte == 0 && r.tried == 256);
    static const uint32_t refused[] = {0x80000001, 0xbf800000, 0x3f800001, 0x7f800000, 0xff800000, 0x7fc00000, 0xffc00001};
    for (size_t i = 0; i < sizeof refused / sizeof *refused; i++) {
        r = juvrada_curve_for_end(255, bits(refused[i]));
        EXPECT(r.refusal == JUVRADA_BAD_LEVEL && r.found == 0 && r.byte == 0 && r.tried == 0);
    }
}

static void bends(void) {
    EXPECT(juvrada_bend(0) == 0.25f && juvrada_bend(64) == 0.5f && juvrada_bend(128) == 1.0f && juvrada_bend(192) == 2.0f);
    /* Those that an envelope has for the curves of its attack, decay and release. */
    float out[JUVRADA_MAX_SETTINGS];
    for (unsigned c = 0; c < 256; c++) {
        block[58] = block[61] = c;
        block[59] = 255 - c;
        juvrada_count_result r = juvrada_settings(block, sizeof block, 0, out);
        EXPECT(r.refusal == JUVRADA_ACCEPTED && r.count == 8);
        EXPECT(out[5] == juvrada_bend(c) && out[6] == juvrada_bend(255 - c) && out[7] == juvrada_bend(c));
        EXPECT(c < 64 || juvrada_bend(c) == 2.0f * juvrada_bend(c - 64));
    }
    block[58] = block[59] = block[61] = 0;
}

static void taps(void) {
    static const float at[JUVRADA_TAPS] = {0.5f, 0.25f, 0.0f, 0.0f}, tall[JUVRADA_TAPS] = {0.75f, 0.5f, 1.0f, 1.0f};
    float mark_at[JUVRADA_MAX_MARKS] = {9.0f, 9.0f, 9.0f, 9.0f, 9.0f, 9.0f, 9.0f, 9.0f};
    uint8_t kind[JUVRADA_MAX_MARKS] = {9, 9, 9, 9, 9, 9, 9, 9};
    juvrada_height_result h = juvrada_taps_height(at, tall, 2, 0.5f);
    EXPECT(h.refusal == JUVRADA_ACCEPTED && h.steps == 0 && h.height == 0.75f);
    EXPECT(juvrada_taps_height(at, tall, 2, 0.0f).height == 0.0f);
    EXPECT(juvrada_taps_height(at, tall, 5, 0.0f).height == 1.0f);
    juvrada_count_result r = juvrada_taps_marks(at, tall, 2, mark_at, kind);
    EXPECT(r.refusal == JUVRADA_ACCEPTED && r.count == 2 && mark_at[0] == 0.5f && mark_at[1] == 0.25f && mark_at[2] == 9.0f);
    EXPECT(kind[0] == JUVRADA_MARK_TAP && kind[1] == JUVRADA_MARK_TAP && kind[2] == 9);
}

int main(void) {
    heights();
    strips();
    strips_once();
    marks();
    others();
    heights_turns();
    strips_turns();
    marks_turns();
    refusals_turns();
    settings();
    captions();
    gates(juvrada_gates);
    gates(juvrada_bars);
    curves();
    bends();
    taps();
    return failures != 0;
}
