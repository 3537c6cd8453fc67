// Times a batch of 16 requests against the same 16 requests made one by one, at 3,001 records: on a register with
// document 01's rule r and a history of 1,000 says and 1,000 requests. Either is made on a copy of that register, and
// both have to leave the same words. The two take turns in one run; of each the middle time, the least and the most are
// printed, and the quotient of the middle ones. The requests are of the last extracts, and then of extracts all over the
// history.
#include <string.h>
#include "bench.h"

enum { ITEMS = 16, ITEM_WORDS = 4 + WORDS(proof), TURNS = 15, TIMES = 100 };

static uint32_t history[REGISTER_WORDS], words[REGISTER_WORDS], left_by_batch[REGISTER_WORDS];
static uint32_t items[ITEMS * ITEM_WORDS];

static void in_a_batch(void)
{
    uint32_t index;
    want(aura0_batch(LIST(signature), OPERATIONS, LIST(words), DAY, LIST(items), LIST(workspace), &index));
}

static void one_by_one(void)
{
    for (const uint32_t *item = items; item < items + WORDS(items); item += ITEM_WORDS)
        want(aura0_request(LIST(signature), OPERATIONS, LIST(words), DAY, item[0], item[1], item[2], item + 4, item[3],
                           LIST(workspace)));
}

// nanoseconds for the 16; what is left stands in `words`
static double nanoseconds(void (*make)(void))
{
    double sum = 0;
    for (int i = 0; i < TIMES; i++) {
        memcpy(words, history, history[0] * sizeof(uint32_t));
        double start = now();
        make();
        sum += now() - start;
    }
    return sum / TIMES;
}

static int by_size(const void *a, const void *b)
{
    double x = *(const double *)a, y = *(const double *)b;
    return (x > y) - (x < y);
}

// prints the middle of the times, with the least and the most, and returns it
static double print(const char *what, double times[TURNS])
{
    qsort(times, TURNS, sizeof(double), by_size);
    printf("%s %.0f ns (%.0f to %.0f)", what, times[TURNS / 2], times[0], times[TURNS - 1]);
    return times[TURNS / 2];
}

// p for 16 extracts, each a step behind the one before it, up to the last: in a batch and one by one
static int compare(const char *which, uint32_t step)
{
    double batch[TURNS], requests[TURNS];
    for (uint32_t i = 0; i < ITEMS; i++) {
        uint32_t k = HISTORY - 1 - (ITEMS - 1 - i) * step;
        const uint32_t item[ITEM_WORDS] = { ITEM(k, k, PROOF(k)) };
        memcpy(items + i * ITEM_WORDS, item, sizeof item);
    }
    for (int turn = 0; turn < TURNS; turn++) {
        batch[turn] = nanoseconds(in_a_batch);
        memcpy(left_by_batch, words, words[0] * sizeof(uint32_t));
        requests[turn] = nanoseconds(one_by_one);
        if (memcmp(left_by_batch, words, words[0] * sizeof(uint32_t)) != 0) {
            printf("the batch leaves other words than the requests\n");
            return 1;
        }
    }
    printf("%d requests at %u records, of %s: ", ITEMS, history[1], which);
    double of_batch = print("in a batch", batch), of_requests = print(", one by one", requests);
    printf(", quotient %.3f\n", of_batch / of_requests);
    return 0;
}

int main(void)
{
    want(aura0_open(LIST(signature), OPERATIONS, AURA0_RELEASE, LIST(history), NO_MARKS, LIST(rules), LIST(workspace)));
    for (uint32_t k = 0; k < HISTORY; k++) {
        say(history, k);
        request(history, k);
    }
    return compare("the last extracts", 1) || compare("extracts all over", HISTORY / ITEMS);
}
