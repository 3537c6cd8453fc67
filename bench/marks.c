// Times a mark and a return at 3,001 records: on a trial register of 1,048,576 words that opens with document 01's rule
// r, behind a history of 1,000 says and 1,000 requests. The return is to a mark at the end of the records, and to one
// that was set at the opening; what it removes is put back with the header and the list of marks.
#include <string.h>
#include "bench.h"

enum { TIMES = 1000, OPENING = 1, END = 2 };

static uint32_t words[REGISTER_WORDS], marks[AURA0_MARK_LIST];

static double mark(uint32_t number)
{
    double start = now();
    want(aura0_mark(LIST(words), LIST(marks), number));
    return now() - start;
}

static double return_to(uint32_t number)
{
    double start = now();
    want(aura0_return(LIST(words), LIST(marks), number));
    return now() - start;
}

int main(void)
{
    double best_mark = 0, best_end = 0, best_opening = 0;
    want(aura0_open(LIST(signature), OPERATIONS, AURA0_TRIAL, LIST(words), LIST(marks), LIST(rules), LIST(workspace)));
    mark(OPENING);
    for (uint32_t k = 0; k < HISTORY; k++) {
        say(words, k);
        request(words, k);
    }
    mark(END);
    uint32_t header[HEADER], standing[AURA0_MARK_LIST];
    memcpy(header, words, sizeof header);
    memcpy(standing, marks, sizeof standing);
    for (int round = 0; round < ROUNDS; round++) {
        double sum_mark = 0, sum_end = 0, sum_opening = 0;
        for (int i = 0; i < TIMES; i++) {
            sum_mark += mark(END);
            sum_end += return_to(END);
            sum_opening += return_to(OPENING);
            memcpy(words, header, sizeof header);
            memcpy(marks, standing, sizeof marks);
        }
        best_mark = least(best_mark, sum_mark);
        best_end = least(best_end, sum_end);
        best_opening = least(best_opening, sum_opening);
    }
    printf("marks, %u records: %.0f ns a mark, %.0f ns a return to the end, %.0f ns to the opening\n", header[1],
           best_mark / TIMES, best_end / TIMES, best_opening / TIMES);
    return 0;
}
