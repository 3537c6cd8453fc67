// Compares loads with document 02's slip 11, written out here a second time: for some seeds, of the fewest and of the
// most requests, every word, and the words behind them. Then makes the says and requests of each longest load: all
// pass on a register that has just room for them, and on one a word shorter all but the last request. Prints a line,
// and each difference; the exit status is 1 where there is one.
#include <stdio.h>
#include "../host/sample.h"

// a register with rule r, and what a say with its request adds to it
enum { OPENED_WORDS = 22, ADDED_WORDS = 49, LEFT = 0x5a5a5a5a };

// two seeds at the ends, one that draws principal 0 first, one each that draws v 0 and u 0, and others
static const uint32_t seeds[] = { 0, 1, 4294967295, 4150723358, 634785765, 1869465083, 2026, 987654321 };
static const uint32_t counts[] = { 1, 2, 255, AURA0_LOAD_MOST };

static uint32_t output[AURA0_LOAD_MOST * AURA0_LOAD_WORDS + 1], words[OPENED_WORDS + AURA0_LOAD_MOST * ADDED_WORDS];
static size_t compared, wrong;

static void same(const char *what, uint32_t seed, size_t index, uint64_t is, uint64_t expected)
{
    compared++;
    if (is == expected)
        return;
    wrong++;
    printf("seed %u, %s %zu: %llu, and not %llu\n", seed, what, index, (unsigned long long)is, (unsigned long long)expected);
}

// the next state, and what is drawn at it
static uint32_t next(uint64_t *state)
{
    *state = (*state * 1664525 + 1013904223) % 4294967296;
    return *state % 16777216;
}

static void draw(uint32_t seed, uint32_t count)
{
    uint64_t state = seed;
    size_t written, n = 0;
    for (size_t i = 0; i < WORDS(output); i++)
        output[i] = LEFT;
    same("answer of a load of", seed, count, aura0_load(seed, count, output, count * 33, &written), 0);
    same("words of a load of", seed, count, written, count * 33);
    for (uint32_t k = 0; k < count; k++) {
        uint32_t v = next(&state), a = next(&state), u = next(&state);
        a = a == 0 ? 1 : a;
        const uint32_t request[] = {
            v, a, u, OPENED(v),
            BIND, SIGN(0), RULE, RET, NAME(0), APP, APP, APP, V(0), TEXT(v), NAME(a), SIGN(a), OPENED(v)
        };
        for (size_t i = 0; i < WORDS(request); i++, n++)
            same("word", seed, n, output[n], request[i]);
    }
    same("word", seed, n, output[n], LEFT);
}

// the says and requests of the load in the output, on a register with so many words
static void make(uint32_t seed, size_t length, uint64_t last)
{
    uint32_t added;
    same("opening of", seed, length,
         aura0_open(LIST(signature), OPERATIONS, AURA0_RELEASE, words, length, NO_MARKS, LIST(rules), LIST(workspace)), 0);
    for (size_t k = 0; k < AURA0_LOAD_MOST; k++) {
        const uint32_t *at = output + k * AURA0_LOAD_WORDS;
        same("say", seed, k,
             aura0_say(LIST(signature), OPERATIONS, words, length, DAY, at[AURA0_LOAD_PRINCIPAL], SAY_FIRST, SAY_LAST,
                       at + AURA0_LOAD_SAID, AURA0_LOAD_SAID_WORDS, LIST(workspace), &added), 0);
        same("request", seed, k,
             aura0_request(LIST(signature), OPERATIONS, words, length, DAY, 0, at[AURA0_LOAD_EXTRACT], at[AURA0_LOAD_DELIVERY],
                           at + AURA0_LOAD_PROOF, AURA0_LOAD_PROOF_WORDS, LIST(workspace)),
             k + 1 < AURA0_LOAD_MOST ? 0 : last);
    }
}

int main(void)
{
    for (size_t s = 0; s < WORDS(seeds); s++) {
        for (size_t c = 0; c < WORDS(counts); c++)
            draw(seeds[s], counts[c]);
        // the longest load stands in the output
        make(seeds[s], WORDS(words), 0);
        make(seeds[s], WORDS(words) - 1, (uint64_t)AURA0_REGISTER_FULL << 32);
    }
    printf("loads of %zu seeds: %zu words and answers, %zu wrong\n", WORDS(seeds), compared, wrong);
    return wrong > 0;
}
