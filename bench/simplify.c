// Times simplify: nanoseconds of a call, of the check alone, and of each step, which is their difference by the steps.
// Four terms: p with two parts that it does not need, and the nested proof, of which all Binds but the last are unused;
// then a term of 2,048 words with a hundred steps; and one whose Binds stand in each other's bodies, so that the search
// for a step counts the uses of many binders, each in a body that is nearly the whole term.
#include <string.h>
#include "bench.h"

enum { MOST_WORDS = 2048, REGISTER = 200 };
static uint32_t words[REGISTER], term[MOST_WORDS], output[MOST_WORDS];
static size_t length;

static void put(const uint32_t *list, size_t n)
{
    memcpy(term + length, list, n * sizeof *list);
    length += n;
}

#define PUT(...) put((const uint32_t[]){ __VA_ARGS__ }, sizeof((uint32_t[]){ __VA_ARGS__ }) / sizeof(uint32_t))

// nanoseconds of a call of simplify, or of check
static double run(const uint32_t *list, size_t n, size_t steps, int check, int times)
{
    double best = 0;
    for (int round = 0; round < ROUNDS; round++) {
        double start = now();
        for (int i = 0; i < times; i++) {
            size_t taken = steps, written;
            if (check)
                want(aura0_check(LIST(signature), OPERATIONS, LIST(words), DAY, list, n, LIST(workspace)));
            else
                want(aura0_simplify(LIST(signature), OPERATIONS, LIST(words), DAY, list, n, steps, LIST(output),
                                    LIST(workspace), &taken, &written));
            if (taken != steps) {
                printf("%zu steps for %zu\n", taken, steps);
                exit(1);
            }
        }
        best = least(best, now() - start);
    }
    return best / times;
}

static void simplify(const char *name, const uint32_t *list, size_t n, size_t steps, int times)
{
    double all = run(list, n, steps, 0, times), check = run(list, n, steps, 1, times);
    printf("simplify %s, %zu words, %zu steps: %.0f ns, the check %.0f ns, a step %.0f ns\n", name, n, steps, all,
           check, (all - check) / steps);
}

// A = App C2 s7, which a3 says, and Q = Pi S Pi A Pi A Pi A A
#define A OPENED(7)
#define Q PI, S, PI, A, PI, A, PI, A, A

// Lam S, then seven Binds, each of the one before it, the first of Sign3 Q. Each body is Ret a3 V0, where in five of
// them V0 is handed through k functions Lam Q V0, in a hundred in all.
static void put_hundred(void)
{
    length = 0;
    PUT(LAM, S, BIND, BIND, BIND, BIND, BIND, BIND, BIND, SIGN(3), Q);
    for (int bind = 0; bind < 7; bind++) {
        PUT(RET, NAME(3));
        for (int k = 0; bind > 1 && k < 16 + bind; k++)
            PUT(APP, LAM, Q, V(0));
        PUT(V(0));
    }
}

// V0 to V(count - 1) handed to f, two by two: App App f x y
static void put_all(uint32_t f, uint32_t from, uint32_t count)
{
    if (count == 1) {
        PUT(V(from));
        return;
    }
    uint32_t first = (2 * count + 1) / 5;
    PUT(APP, APP, V(f));
    put_all(f, from, first);
    put_all(f, from + first, count - first);
}

// Lam Pi A Pi A A, then twenty Binds, each in the body of the one before it. The proof of each is Bind Sign3 A Ret a3
// V0, where V0 is handed through k functions Lam A V0. All their variables are used at the end of the term alone.
static void put_inner(void)
{
    length = 0;
    PUT(LAM, PI, A, PI, A, A);
    for (int bind = 0; bind < 20; bind++) {
        PUT(BIND, BIND, SIGN(3), A, RET, NAME(3));
        for (int k = 0; k < 24 - bind; k++)
            PUT(APP, LAM, A, V(0));
        PUT(V(0));
    }
    PUT(RET, NAME(3));
    put_all(20, 0, 20);
}

int main(void)
{
    static const uint32_t longer[] = { LONGER_PROOF }, said[] = { Q };
    static uint32_t nested[NESTED_WORDS];
    uint32_t added;
    want(aura0_open(LIST(signature), OPERATIONS, AURA0_RELEASE, LIST(words), NO_MARKS, LIST(rules), LIST(workspace)));
    want(aura0_say(LIST(signature), OPERATIONS, LIST(words), DAY, 3, SAY_FIRST, SAY_LAST, LIST(proposition),
                   LIST(workspace), &added));
    want(aura0_say(LIST(signature), OPERATIONS, LIST(words), DAY, 3, SAY_FIRST, SAY_LAST, LIST(said), LIST(workspace),
                   &added));
    simplify("longer p", LIST(longer), 2, 100000);
    put_nested(nested);
    simplify("the nested proof", LIST(nested), NESTED_BINDS - 1, 10000);
    put_hundred();
    simplify("a long term", term, length, 100, 100);
    put_inner();
    simplify("Binds in bodies", term, length, 290, 10);
    return 0;
}
