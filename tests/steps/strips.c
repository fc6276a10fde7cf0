/*
 * The steps of one walk along a strip, against their law, by the function without turns and at 6 and 8 turns.
 *   strips law     many strips: the steps that are answered are 191 + n, 671 + n or 863 + n, and 0 where nothing is
 *                  walked; a line says how many
 *   strips cost    under callgrind: a few strips by both engines, and a line for each pair: shape, turns, samples, the
 *                  plain engine's steps, those of one walk
 */
#include "juvrada.h"
#include <stdio.h>
#include <string.h>

static uint8_t block[JUVRADA_BLOCK];
static float out[JUVRADA_MAX_STRIP];

/* Both LFOs alike. */
static void set(unsigned shape, unsigned slew) {
    block[2] = block[9] = shape;
    block[6] = block[13] = slew;
}

/* The engines: the plain one and one walk. Turns of 0 stand for the function that takes none and draws six. */
typedef juvrada_strip_result engine(uint32_t code, uint32_t turns, uint32_t n);
static juvrada_strip_result plain(uint32_t code, uint32_t turns, uint32_t n) {
    return turns == 0 ? juvrada_strip(block, sizeof block, code, out, n)
                      : juvrada_strip_turns(block, sizeof block, code, turns, out, n);
}
static juvrada_strip_result once(uint32_t code, uint32_t turns, uint32_t n) {
    return turns == 0 ? juvrada_strip_once(block, sizeof block, code, out, n)
                      : juvrada_strip_once_turns(block, sizeof block, code, turns, out, n);
}

static uint32_t law(uint32_t code, unsigned shape, unsigned slew, uint32_t turns, uint32_t n) {
    if (code < 3 || code > 6 || slew == 0)
        return 0;
    if (shape != 5 && shape != 6)
        return 191 + n;
    return (turns == 8 ? 863 : 671) + n;
}

static unsigned strips = 0, wrong = 0;

/* A curve's strips of some lengths, without turns and with them. */
static void hold(uint32_t code, unsigned shape, unsigned slew) {
    static const uint32_t lengths[] = {2, 3, 100, JUVRADA_MAX_STRIP}, all_turns[] = {0, 6, 8};
    for (unsigned i = 0; i < sizeof lengths / sizeof *lengths; i++) {
        for (unsigned j = 0; j < sizeof all_turns / sizeof *all_turns; j++) {
            uint32_t n = lengths[i], turns = all_turns[j], steps = law(code, shape, slew, turns, n);
            juvrada_strip_result r = once(code, turns, n);
            strips++;
            if (r.refusal == JUVRADA_ACCEPTED && r.steps == steps)
                continue;
            if (wrong++ < 10)
                fprintf(stderr, "code %u, shape %u, slew %u, turns %u, %u samples: %u steps, the law has %u\n",
                        code, shape, slew, turns, n, r.steps, steps);
        }
    }
}

static int hold_all(void) {
    for (unsigned shape = 0; shape < 8; shape++) {
        for (unsigned slew = 0; slew < 256; slew++) {
            set(shape, slew);
            for (uint32_t code = 0; code < 14; code++) {
                /* A code that is not walked does not read the slew. */
                if (slew <= 1 || (code >= 3 && code <= 6))
                    hold(code, shape, slew);
            }
        }
    }
    printf("%u strips\n", strips);
    return wrong != 0;
}

/* What callgrind counts, a call at a time. */
__attribute__((noinline)) juvrada_strip_result counted(engine *fill, uint32_t turns, uint32_t n) {
    return fill(3, turns, n);
}

static void cost(unsigned shape, uint32_t turns) {
    static const uint32_t lengths[] = {2, 64, 512, JUVRADA_MAX_STRIP};
    set(shape, 128);
    for (unsigned i = 0; i < sizeof lengths / sizeof *lengths; i++) {
        uint32_t n = lengths[i];
        printf("%u %u %u %u ", shape, turns, n, counted(plain, turns, n).steps);
        printf("%u\n", counted(once, turns, n).steps);
    }
}

static void cost_all(void) {
    for (unsigned shape = 0; shape < 7; shape++) cost(shape, 0);
    for (unsigned shape = 5; shape < 7; shape++) cost(shape, 8);
}

int main(int words, char **word) {
    if (words == 2 && strcmp(word[1], "cost") == 0)
        return cost_all(), 0;
    return hold_all();
}
