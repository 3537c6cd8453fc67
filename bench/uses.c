// Times the count of free variables, from 0 on, in document 01's p and in the nested proof. Both are closed.
#include "bench.h"

static void uses(const char *name, const uint32_t *term, size_t words, int times)
{
    double best = 0;
    for (int round = 0; round < ROUNDS; round++) {
        double start = now();
        for (int i = 0; i < times; i++) {
            size_t count;
            want(aura0_uses(term, words, 0, &count));
            if (count != 0) {
                printf("%s is not closed\n", name);
                exit(1);
            }
        }
        best = least(best, now() - start);
    }
    printf("free variables of %s, %zu words: %.1f ns a word\n", name, words, best / times / words);
}

int main(void)
{
    static uint32_t nested[NESTED_WORDS];
    put_nested(nested);
    uses("p", LIST(proof), 200000);
    uses("the nested proof", LIST(nested), 20000);
    return 0;
}
