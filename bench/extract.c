// Times the extract desk: document 01's request with a list of 1,024 homes and a table of 4,096 rows, on a register of
// 71 words that is opened and gets its say anew for each. The request's share is timed with an empty list and table.
#include "bench.h"

enum { HOMES = 1024, ROWS = 4096, TIMES = 2000 };

static uint32_t words[71], homes[HOMES], surveys[2 * ROWS], output[2 * HOMES];

// nanoseconds an extract of so many homes and rows
static double nanoseconds(size_t list, size_t rows)
{
    double best = 0;
    for (int round = 0; round < ROUNDS; round++) {
        double sum = 0;
        for (int i = 0; i < TIMES; i++) {
            uint32_t added;
            want(aura0_open(LIST(signature), OPERATIONS, AURA0_RELEASE, LIST(words), NO_MARKS, LIST(rules), LIST(workspace)));
            want(aura0_say(LIST(signature), OPERATIONS, LIST(words), DAY, 3, SAY_FIRST, SAY_LAST, LIST(proposition),
                           LIST(workspace), &added));
            double start = now();
            want(aura0_extract(LIST(signature), OPERATIONS, LIST(words), DAY, 0, 7, 9, LIST(proof), homes, list, surveys,
                               2 * rows, LIST(output), LIST(workspace)));
            sum += now() - start;
        }
        best = least(best, sum);
    }
    return best / TIMES;
}

int main(void)
{
    // every second home has a survey
    for (uint32_t k = 0; k < HOMES; k++)
        homes[k] = 8 * k + k % 2;
    for (uint32_t k = 0; k < ROWS; k++) {
        surveys[2 * k] = 2 * k;
        surveys[2 * k + 1] = k;
    }
    double alone = nanoseconds(0, 0), whole = nanoseconds(HOMES, ROWS);
    printf("extract, %d homes, %d rows: %.1f ns a home with the request, %.1f ns without (the request %.0f ns)\n",
           HOMES, ROWS, whole / HOMES, (whole - alone) / HOMES, alone);
    return 0;
}
