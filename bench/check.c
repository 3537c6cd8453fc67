// Times the check of terms under document 01's sample signature. The workspace is not cleared between checks.
#include "bench.h"

// crates/timed: the number of the refusal
uint32_t timed_check(const uint32_t *signature, size_t signature_words, const uint32_t *term, size_t term_words,
                     uint32_t *workspace, size_t workspace_words);

static double nanoseconds(const uint32_t *term, size_t words, int times, uint32_t expected)
{
    double best = 0;
    for (int round = 0; round < ROUNDS; round++) {
        double start = now();
        for (int i = 0; i < times; i++)
            if (timed_check(LIST(signature), term, words, LIST(workspace)) != expected) {
                printf("a term of %zu words is not answered by %u\n", words, expected);
                exit(1);
            }
        best = least(best, now() - start);
    }
    return best / times;
}

int main(void)
{
    static uint32_t nested[NESTED_WORDS];
    put_nested(nested);
    // an empty term is refused by 6, just after the signature
    double signature_alone = nanoseconds(proof, 0, 200000, AURA0_TERM_LENGTH);
    double small = nanoseconds(LIST(proof), 200000, 0);
    double large = nanoseconds(LIST(nested), 20000, 0);
    printf("signature, %zu words: %.0f ns\n", WORDS(signature), signature_alone);
    printf("p, %zu words: %.0f ns with the signature, %.0f ns without\n", WORDS(proof), small, small - signature_alone);
    printf("nested proof, %zu words: %.0f ns with the signature, %.0f ns without\n", WORDS(nested), large, large - signature_alone);
    return 0;
}
