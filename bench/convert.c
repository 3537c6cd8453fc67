// Times the two converters, on document 01's p and on the nested proof. Into names the output has as many words as the
// term; what comes back stands in the workspace, and has to be the term.
#include <string.h>
#include "bench.h"

typedef uint64_t converter(const uint32_t *term, size_t term_words, uint32_t *output, size_t output_words, size_t *written);

// nanoseconds a word
static double nanoseconds(converter *convert, const uint32_t *term, size_t words, uint32_t *output, size_t output_words, int times)
{
    double best = 0;
    size_t written;
    for (int round = 0; round < ROUNDS; round++) {
        double start = now();
        for (int i = 0; i < times; i++)
            want(convert(term, words, output, output_words, &written));
        best = least(best, now() - start);
    }
    return best / times / words;
}

static void convert(const char *name, const uint32_t *term, size_t words, int times)
{
    static uint32_t named[NESTED_WORDS];
    double to = nanoseconds(aura0_to_named, term, words, named, words, times);
    double from = nanoseconds(aura0_from_named, named, words, LIST(workspace), times);
    if (memcmp(workspace, term, words * sizeof *term) != 0) {
        printf("%s does not come back\n", name);
        exit(1);
    }
    printf("conversion of %s, %zu words: %.1f ns a word into names, %.1f ns a word back\n", name, words, to, from);
}

int main(void)
{
    static uint32_t nested[NESTED_WORDS];
    put_nested(nested);
    convert("p", LIST(proof), 200000);
    convert("the nested proof", LIST(nested), 20000);
    return 0;
}
