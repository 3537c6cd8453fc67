// Times a history of 1,000 says and 1,000 requests, in turn, on a register of 1,048,576 words that opens with document
// 01's rule r: a say and a request on the way, from 1 record to 3,001, and then at 3,001 records. All are made on one
// day, which every statement covers.
#include <string.h>
#include "bench.h"

static uint32_t words[REGISTER_WORDS];

int main(void)
{
    double best_say = 0, best_request = 0, last_say = 0, last_request = 0;
    uint32_t header[HEADER];
    for (int round = 0; round < ROUNDS; round++) {
        double says = 0, requests = 0;
        want(aura0_open(LIST(signature), OPERATIONS, AURA0_RELEASE, LIST(words), NO_MARKS, LIST(rules), LIST(workspace)));
        for (uint32_t k = 0; k < HISTORY; k++) {
            says += say(words, k);
            requests += request(words, k);
        }
        best_say = least(best_say, says);
        best_request = least(best_request, requests);

        // a statement that no record has, and a proof by the last say; what each adds is taken back with the header
        memcpy(header, words, sizeof header);
        says = requests = 0;
        for (uint32_t k = 0; k < HISTORY; k++) {
            says += say(words, HISTORY);
            memcpy(words, header, sizeof header);
            requests += request(words, HISTORY - 1);
            memcpy(words, header, sizeof header);
        }
        last_say = least(last_say, says);
        last_request = least(last_request, requests);
    }
    printf("history, %u records, %u words: %.0f ns a say, %.0f ns a request; at its end %.0f and %.0f\n",
           words[1], words[0], best_say / HISTORY, best_request / HISTORY, last_say / HISTORY, last_request / HISTORY);
    return 0;
}
