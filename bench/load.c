// Times a load of 256 requests.
#include "bench.h"

enum { TIMES = 20000 };

int main(void)
{
    double best = 0;
    for (int round = 0; round < ROUNDS; round++) {
        double start = now();
        for (uint32_t seed = 0; seed < TIMES; seed++) {
            size_t written;
            want(aura0_load(seed, AURA0_LOAD_MOST, drawn, AURA0_LOAD_MOST * AURA0_LOAD_WORDS, &written));
        }
        best = least(best, now() - start);
    }
    printf("load of %d requests: %.1f ns a request\n", AURA0_LOAD_MOST, best / TIMES / AURA0_LOAD_MOST);
    return 0;
}
