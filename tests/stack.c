// Measures the stack that the calls of include/aura0.h take. Each call runs in a thread that has AURA0_STACK bytes of
// stack in all, above a page that may not be touched: a call that takes more ends the test by a fault. The bytes are
// painted before, and those from the frame of the function that calls down to the lowest one written are counted.
// Prints a line a function, and the most; the exit status is 1 where a call answers another number than expected.
#define _GNU_SOURCE
#include <pthread.h>
#include <stdio.h>
#include <stdlib.h>
#include <string.h>
#include <sys/mman.h>
#include "../host/sample.h"

enum { PAGE = 4096, PAINT = 0xa5 };
enum { MOST_WORDS = 2048, MOST_CONSTANT_WORDS = 256, MOST_NESTING = 32, MOST_ITEMS = 16, HOMES = 1024, ROWS = 4096 };

enum call {
    OPEN, SAY, REQUEST, BATCH, EXTRACT, CHECK, CHECK_TYPE, TO_NAMED, FROM_NAMED, USES, SIMPLIFY, READ, MARK, RETURN, CALLS
};
static const char *const names[CALLS] = {
    "aura0_open", "aura0_say", "aura0_request", "aura0_batch", "aura0_extract", "aura0_check", "aura0_check_type",
    "aura0_to_named", "aura0_from_named", "aura0_uses", "aura0_simplify", "aura0_read", "aura0_mark", "aura0_return"
};

// an item with p
static const uint32_t item[] = { ITEM(7, 9, PROOF(7)) };

// room for a signature, a term, a rule, or the items of a batch: four words and a term behind such items
struct list {
    uint32_t words[(MOST_ITEMS - 1) * WORDS(item) + 4 + MOST_WORDS];
    size_t length;
};
#define LENT(list) (list).words, (list).length

// what the calls are lent, and the number that each is to answer
struct input {
    const char *name;
    struct list signature, proof, statement, rules, items;
    uint32_t numbers[CALLS];
};

// the register has room for p's grant and receipt by a request, an extract and each item of a batch
static uint32_t words[30 + (2 + MOST_ITEMS) * 41], marks[AURA0_MARK_LIST], homes[HOMES], surveys[2 * ROWS], output[2 * HOMES];

static uint64_t make(enum call call, const struct input *in)
{
    uint32_t one;
    size_t start, length;
#define STATE LENT(in->signature), OPERATIONS, LIST(words)
    switch (call) {
    case OPEN:
        return aura0_open(LENT(in->signature), OPERATIONS, AURA0_TRIAL, LIST(words), LIST(marks), LENT(in->rules), LIST(workspace));
    case SAY:
        return aura0_say(STATE, DAY, 3, SAY_FIRST, SAY_LAST, LENT(in->statement), LIST(workspace), &one);
    case REQUEST:
        return aura0_request(STATE, DAY, 0, 7, 9, LENT(in->proof), LIST(workspace));
    case BATCH:
        return aura0_batch(STATE, DAY, LENT(in->items), LIST(workspace), &one);
    case EXTRACT:
        return aura0_extract(STATE, DAY, 0, 7, 9, LENT(in->proof), LIST(homes), LIST(surveys), LIST(output), LIST(workspace));
    case CHECK:
        return aura0_check(STATE, DAY, LENT(in->proof), LIST(workspace));
    case CHECK_TYPE:
        return aura0_check_type(STATE, DAY, LENT(in->proof), LIST(workspace), &length);
    case TO_NAMED:
        return aura0_to_named(LENT(in->proof), LIST(output), &length);
    case FROM_NAMED:
        return aura0_from_named(LENT(in->proof), LIST(output), &length);
    case USES:
        return aura0_uses(LENT(in->proof), 0, &length);
    case SIMPLIFY:
        return aura0_simplify(STATE, DAY, LENT(in->proof), SIZE_MAX, LIST(output), LIST(workspace), &start, &length);
    case MARK:
        return aura0_mark(LIST(words), LIST(marks), 7);
    case RETURN:
        return aura0_return(LIST(words), LIST(marks), 7);
    default:
        return aura0_read(LIST(words), 5, &one, &start, &length);
    }
}

struct job {
    enum call call;
    const struct input *in;
    unsigned char *frame;
    uint64_t answer;
};

static void *run(void *argument)
{
    struct job *job = argument;
    job->frame = __builtin_frame_address(0);
    job->answer = make(job->call, job->in);
    return NULL;
}

static void must(int fine, const char *what)
{
    if (!fine) {
        printf("%s\n", what);
        exit(1);
    }
}

// how many bytes the call took
static size_t measure(enum call call, const struct input *in)
{
    static unsigned char *guard;
    if (guard == NULL) {
        guard = mmap(NULL, PAGE + AURA0_STACK, PROT_READ | PROT_WRITE, MAP_PRIVATE | MAP_ANONYMOUS, -1, 0);
        must(guard != MAP_FAILED && mprotect(guard, PAGE, PROT_NONE) == 0, "no memory");
    }
    unsigned char *lowest = guard + PAGE;
    struct job job = { call, in, NULL, 0 };
    pthread_attr_t attributes;
    pthread_t thread;
    memset(lowest, PAINT, AURA0_STACK);
    must(pthread_attr_init(&attributes) == 0 && pthread_attr_setstack(&attributes, lowest, AURA0_STACK) == 0
         && pthread_create(&thread, &attributes, run, &job) == 0 && pthread_join(thread, NULL) == 0, "no thread");
    if (aura0_number(job.answer) != in->numbers[call]) {
        printf("%s: %u at %u, not %u\n", in->name, aura0_number(job.answer), aura0_place(job.answer), in->numbers[call]);
        exit(1);
    }
    while (*lowest == PAINT)
        lowest++;
    return job.frame - lowest;
}

static void put(struct list *to, const uint32_t *from, size_t length)
{
    memcpy(to->words + to->length, from, length * sizeof(uint32_t));
    to->length += length;
}
#define PUT(to, ...) put(to, LIST(((const uint32_t[]){ __VA_ARGS__ })))

static void put_times(struct list *to, size_t times, uint32_t word)
{
    for (size_t i = 0; i < times; i++)
        PUT(to, word);
}

// behind document 01's constants: the one of the type Pi P .. Pi P P with so many Pis
#define PREDICATE(arity) C(4 + (arity))

static void put_constants(struct list *to)
{
    for (uint32_t arity = 0; arity < MOST_NESTING; arity++) {
        PUT(to, 2 * arity + 1);
        for (uint32_t i = 0; i < arity; i++)
            PUT(to, PI, P);
        PUT(to, P);
    }
}

// it applied to as many propositions, of which the first is given: nested arity + 1 deep
static void put_predicate(struct list *to, uint32_t arity, uint32_t first)
{
    put_times(to, arity, APP);
    PUT(to, PREDICATE(arity), first);
    put_times(to, arity - 1, PREDICATE(0));
}

// A proof nested `deep`, whose derivation fills, searches and shifts a type of about 250 words that nests more than 100
// deep, and fills it where the derivation is deepest itself: Lam d Bind (Bind e b) (Ret a0 V1), with
// d = Pi P Says a0 Pi P B.
static void put_derivation(struct list *to, uint32_t deep)
{
    PUT(to, LAM, PI, P, SAYS, NAME(0), PI, P);
    put_predicate(to, deep - 5, V(1));
    PUT(to, BIND, BIND);
    // e : Says a0 Pi P B'. In B' the first proposition of B is a predicate, whose first one is another, four times
    PUT(to, APP, LAM, P, APP, LAM, P, APP, LAM, P, APP, V(3));
    put_predicate(to, deep - 11, V(0));
    put_predicate(to, deep - 9, V(0));
    put_predicate(to, deep - 7, V(0));
    put_predicate(to, deep - 5, PREDICATE(0));
    // b : Says a0 B': Binds, one in the other, and within the last an App of the first one's variable
    for (uint32_t i = 0; i < deep - 6; i++)
        PUT(to, BIND, RET, NAME(0), V(1 + i));
    PUT(to, RET, NAME(0), APP, V(deep - 6), PREDICATE(0));
    PUT(to, RET, NAME(0), V(1));
}

// A term of so many words that nests little.
static void put_flat(struct list *to, size_t count)
{
    if (count > 2) {
        PUT(to, APP);
        put_flat(to, (count - 1) / 2);
        put_flat(to, count / 2);
    } else if (count == 2)
        PUT(to, SIGN(0), P);
    else
        PUT(to, P);
}

// A term of so many words nested `deep`, in either edition: App l t, where l is Lams, each the body of the one before.
// The last one's body is V0, its variable; with names all of them have the name 0, and V0 means the nearest.
static void put_lams(struct list *to, size_t count, uint32_t deep)
{
    PUT(to, APP);
    for (uint32_t i = 0; i < deep - 2; i++)
        PUT(to, LAM, P);
    PUT(to, V(0));
    put_flat(to, count - 2 * deep + 2);
}

int main(void)
{
    // words App, which are read each within the one before, as a term and as a constant's type; the derivation, which
    // proves another proposition than is requested, is none where one is said, and has unbound variables where they are
    // taken for names; Lams as deep as a term nests, with as many words as it has, of which the last Lam breaks its
    // rule; document 01's register
    static struct input inputs[] = {
        { .name = "App", .numbers = { 7, 7, 7, 7, 7, 7, 7, 7, 7, 7, 7 } },
        { .name = "constant", .numbers = { 4, 4, 4, 4, 4, 4, 4, 7, 7, 7, 4 } },
        { .name = "derivation", .numbers = { 11, 11, 13, 13, 13, 0, 0, 0, 24, 0, 0 } },
        { .name = "Lam", .numbers = { 11, 11, 11, 11, 11, 11, 11, 0, 0, 0, 11 } },
        { .name = "sample", .numbers = { [FROM_NAMED] = 24 } },
    };
    struct input *reading = &inputs[0], *constant = &inputs[1], *derivation = &inputs[2], *lams = &inputs[3];
    struct input *sample = &inputs[4], *end = sample + 1;
    size_t most = 0;

    for (struct input *in = inputs; in < end; in++)
        PUT(&in->signature, CONSTANTS);
    put_times(&reading->proof, MOST_WORDS, APP);
    put_times(&constant->proof, MOST_CONSTANT_WORDS, APP);
    PUT(&constant->signature, MOST_CONSTANT_WORDS);
    put(&constant->signature, LENT(constant->proof));
    put_constants(&derivation->signature);
    put_derivation(&derivation->proof, MOST_NESTING);
    put_lams(&lams->proof, MOST_WORDS, MOST_NESTING);
    put(&sample->proof, LIST(proof));
    // a statement has a word less and nests one less, for the word Sign; a rule is one behind its principal, days and
    // length
    put_times(&reading->statement, MOST_WORDS - 1, APP);
    put_derivation(&derivation->statement, MOST_NESTING - 1);
    put_lams(&lams->statement, MOST_WORDS - 1, MOST_NESTING - 1);
    put(&sample->statement, LIST(proposition));
    for (struct input *in = inputs; in < sample; in++) {
        PUT(&in->rules, 0, RULE_FIRST, RULE_LAST, in->statement.length);
        put(&in->rules, LENT(in->statement));
    }
    put(&sample->rules, LIST(rules));
    // the most items: the proof stands in the last one, and p in those before it, which would be granted
    for (struct input *in = inputs; in < end; in++) {
        for (int i = 0; i < MOST_ITEMS - 1; i++)
            put(&in->items, LIST(item));
        PUT(&in->items, 0, 7, 10, in->proof.length);
        put(&in->items, LENT(in->proof));
    }
    // the longest list and table; every home has a survey
    for (uint32_t k = 0; k < HOMES; k++)
        homes[k] = 4 * k;
    for (uint32_t k = 0; k < ROWS; k++)
        surveys[2 * k] = k;

    printf("stack in bytes  ");
    for (struct input *in = inputs; in < end; in++)
        printf("%11s", in->name);
    for (enum call call = OPEN; call < CALLS; call++) {
        printf("\n%-16s", names[call]);
        for (struct input *in = inputs; in < end; in++) {
            // a read, a mark and a return are lent no term
            if (call >= READ && in != sample) {
                printf("%11s", "");
                continue;
            }
            fflush(stdout);
            size_t bytes = measure(call, in);
            printf("%11zu", bytes);
            if (bytes > most)
                most = bytes;
        }
    }
    printf("\nthe most: %zu of AURA0_STACK = %d\n", most, AURA0_STACK);
    return 0;
}
