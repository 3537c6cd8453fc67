// What the benchmarks share: the clock, the least of the rounds, calls that have to succeed, the says and requests of a
// history, and the nested proof.
#ifndef AURA0_BENCH_H
#define AURA0_BENCH_H

#include <stdio.h>
#include <stdlib.h>
#include <time.h>
#include "../host/sample.h"

enum { ROUNDS = 5 };

static inline double now(void)
{
    struct timespec t;
    clock_gettime(CLOCK_MONOTONIC, &t);
    return t.tv_sec * 1e9 + t.tv_nsec;
}

// `best` is 0 before the first round
static inline double least(double best, double time)
{
    return best == 0 || time < best ? time : best;
}

static inline void want(uint64_t answer)
{
    if (answer != 0) {
        printf("refused: %u at %u\n", aura0_number(answer), aura0_place(answer));
        exit(1);
    }
}

// A history of as many says as requests, in turn, all on one day, which every statement covers: with the rule r, 3,001
// records. The register is the longest there is.
enum { HISTORY = 1000, REGISTER_WORDS = 1048576 };

// the words of a register's header
enum { HEADER = 4 };

// a3 says App C2 sk; nanoseconds
static inline double say(uint32_t words[REGISTER_WORDS], uint32_t k)
{
    const uint32_t said[] = { OPENED(k) };
    uint32_t added;
    double start = now();
    want(aura0_say(LIST(signature), OPERATIONS, words, REGISTER_WORDS, DAY, 3, SAY_FIRST, SAY_LAST, LIST(said),
                   LIST(workspace), &added));
    return now() - start;
}

// a request of the extract k as delivery k, whose proof is p for sk; nanoseconds
static inline double request(uint32_t words[REGISTER_WORDS], uint32_t k)
{
    const uint32_t proves[] = { PROOF(k) };
    double start = now();
    want(aura0_request(LIST(signature), OPERATIONS, words, REGISTER_WORDS, DAY, 0, k, k, LIST(proves), LIST(workspace)));
    return now() - start;
}

// thirteen Binds, one in the other, each of p; the innermost returns its variable
enum { NESTED_BINDS = 13, NESTED_WORDS = NESTED_BINDS * (1 + WORDS(proof)) + 3 };

static inline void put_nested(uint32_t words[NESTED_WORDS])
{
    size_t n = 0;
    for (int i = 0; i < NESTED_BINDS; i++) {
        words[n++] = BIND;
        for (size_t j = 0; j < WORDS(proof); j++)
            words[n++] = proof[j];
    }
    words[n++] = RET;
    words[n++] = NAME(0);
    words[n++] = V(0);
}

#endif
