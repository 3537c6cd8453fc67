// Document 01's worked register, with days, by the calls of include/aura0.h: prints what each call answers, and lists
// the records. Then a batch of two requests, a trial register that is returned to a mark, p in the edition with named
// variables, the uses of p's binder, and a longer proof simplified to p.
#include <stdio.h>
#include "sample.h"

static void print(const char *call, uint64_t answer)
{
    printf("%s: %u at %u\n", call, aura0_number(answer), aura0_place(answer));
}

static void print_words(const char *what, const uint32_t *words, size_t length)
{
    printf("%s", what);
    for (size_t i = 0; i < length; i++)
        printf(" %08x", words[i]);
    printf("\n");
}

// The calls of a day print it first, and the words used and the latest day behind.
static void print_on(uint32_t day, const char *call, uint64_t answer, const uint32_t *words)
{
    printf("day %u, ", day);
    print(call, answer);
    printf("words used %u, latest day %u\n", words[0], words[2]);
}

// a3 says App C2 s7
static void say(uint32_t *words, size_t length, uint32_t day)
{
    uint32_t added;
    uint64_t answer = aura0_say(LIST(signature), OPERATIONS, words, length, day, 3, SAY_FIRST, SAY_LAST, LIST(proposition),
                                LIST(workspace), &added);
    print_on(day, "say", answer, words);
    printf("added %u\n", added);
}

// request 0, 7, 9 with p
static void request(uint32_t *words, size_t length, uint32_t day)
{
    print_on(day, "request", aura0_request(LIST(signature), OPERATIONS, words, length, day, 0, 7, 9, LIST(proof), LIST(workspace)),
             words);
}

// Rule r and the say.
static void start(uint32_t *words, size_t length)
{
    printf("a register of %zu words\n", length);
    print("open", aura0_open(LIST(signature), OPERATIONS, AURA0_RELEASE, words, length, NO_MARKS, LIST(rules), LIST(workspace)));
    say(words, length, DAY);
}

// Rule r, the say and the request.
static void fill(uint32_t *words, size_t length)
{
    start(words, length);
    request(words, length, DAY);
}

// A batch: the index is that of the item refused.
static void batch(uint32_t *words, size_t length, const uint32_t *items, size_t items_words)
{
    uint32_t index;
    uint64_t answer = aura0_batch(LIST(signature), OPERATIONS, words, length, DAY, items, items_words, LIST(workspace), &index);
    print_on(DAY, "batch", answer, words);
    printf("index %u\n", index);
}

// The same request by the extract desk: a list of three homes, of which one has a survey, and an output of two words
// a home.
static void extract(uint32_t *words, size_t length, size_t output_words)
{
    static const uint32_t homes[] = { 11, 12, 15 }, surveys[] = { 12, 4, 14, 9 };
    uint32_t output[6] = { 0 };
    uint64_t answer = aura0_extract(LIST(signature), OPERATIONS, words, length, DAY, 0, 7, 9, LIST(proof),
                                    LIST(homes), LIST(surveys), output, output_words, LIST(workspace));
    print_on(DAY, "extract", answer, words);
    printf("homes");
    for (size_t i = 0; i < 6; i += 2)
        printf(" %u,%u", output[i], output[i + 1]);
    printf("\n");
}

// The records as the listing program prints them. Before the proposition a rule and a say have principal, first and
// last day, and a receipt its principal; before the proof a grant has operation, extract, delivery and day, and its
// principal is 0.
static void list(const uint32_t *words, size_t length)
{
    static const char *const kinds[] = { "", "rule", "say", "grant", "receipt" };
    static const size_t before[] = { 0, 3, 3, 4, 1 };
    printf("record,kind,principal,words\n");
    for (size_t record = 0;; record++) {
        uint32_t kind;
        size_t start, body;
        uint64_t answer = aura0_read(words, length, record, &kind, &start, &body);
        if (answer != 0) {
            print("read", answer);
            return;
        }
        printf("%zu,%s,%u,%zu\n", record, kinds[kind], kind == AURA0_GRANT ? 0 : words[start], body - before[kind]);
    }
}

// A mark behind the say, a request, the return to the mark, and the request on its old day.
static void try_out(uint32_t *words, size_t length)
{
    uint32_t marks[AURA0_MARK_LIST] = { 9 };
    printf("a register of %zu words, for trial\n", length);
    print("open", aura0_open(LIST(signature), OPERATIONS, AURA0_TRIAL, words, length, LIST(marks), LIST(rules), LIST(workspace)));
    say(words, length, DAY);
    print("mark 5", aura0_mark(words, length, LIST(marks), 5));
    request(words, length, SAY_LAST);
    print("mark 6", aura0_mark(words, length, LIST(marks), 6));
    print_words("marks", marks, 1 + 4 * marks[0]);
    print("return 5", aura0_return(words, length, LIST(marks), 5));
    printf("words used %u, latest day %u\n", words[0], words[2]);
    print_words("marks", marks, 1 + 4 * marks[0]);
    print("return 6", aura0_return(words, length, LIST(marks), 6));
    request(words, length, DAY);
}

// p into names, first into an output of a word less; back; and p itself taken for a term with names.
static void convert(void)
{
    uint32_t named[WORDS(proof)], back[WORDS(proof)];
    size_t written;
    print("p into names", aura0_to_named(LIST(proof), named, WORDS(named) - 1, &written));
    print_words("written", named, written);
    print("p into names", aura0_to_named(LIST(proof), LIST(named), &written));
    print_words("written", named, written);
    print("p from names", aura0_from_named(LIST(named), LIST(back), &written));
    print_words("written", back, written);
    print("p as names", aura0_from_named(LIST(proof), LIST(back), &written));
    print_words("written", back, written);
}

// The body of p stands behind the word Bind and r, which has 14 words. Counted from 0 on and from 1 on, the two differ by
// the uses of p's binder. Then p itself, and p without its last word.
static void uses(void)
{
    const uint32_t *body = proof + 15;
    size_t body_words = WORDS(proof) - 15, from_0, from_1;
    print("the body from 0", aura0_uses(body, body_words, 0, &from_0));
    print("the body from 1", aura0_uses(body, body_words, 1, &from_1));
    printf("free %zu and %zu\n", from_0, from_1);
    print("p from 0", aura0_uses(LIST(proof), 0, &from_0));
    print("26 words of p from 0", aura0_uses(proof, WORDS(proof) - 1, 0, &from_1));
    printf("free %zu and %zu\n", from_0, from_1);
}

// Longer p, with a budget, and a word less or more than the output needs.
static void simplify(uint32_t *words, size_t length, const char *call, size_t budget, size_t room)
{
    static const uint32_t longer[] = { LONGER_PROOF };
    uint32_t output[WORDS(proof) + 1];
    size_t steps, written;
    print(call, aura0_simplify(LIST(signature), OPERATIONS, words, length, DAY, LIST(longer), budget, output, room, LIST(workspace),
                               &steps, &written));
    printf("steps %zu\n", steps);
    print_words("written", output, written);
}

int main(void)
{
    // a request with p, and one whose proof uses the receipt of the first, in this order and in the other
    static const uint32_t in_turn[] = { ITEM(7, 9, PROOF(7)), ITEM(7, 10, PROOF_BY_RECEIPT(7, 9)) };
    static const uint32_t other_order[] = { ITEM(7, 10, PROOF_BY_RECEIPT(7, 9)), ITEM(7, 9, PROOF(7)) };
    static uint32_t words[71], fewer[70], more[112], both[119], one[118], tried[71];
    size_t type_words;

    fill(words, 71);
    list(words, 71);
    print("check p", aura0_check(LIST(signature), OPERATIONS, LIST(words), DAY, LIST(proof), LIST(workspace)));
    print("check p", aura0_check_type(LIST(signature), OPERATIONS, LIST(words), DAY, LIST(proof), LIST(workspace), &type_words));
    print_words("type", workspace, type_words);

    // what a3 says stands there already, and the latest day moves on; then it has lapsed; then a day before the latest
    say(words, 71, SAY_LAST);
    request(words, 71, SAY_LAST + 1);
    request(words, 71, DAY);

    fill(fewer, 70);
    list(fewer, 70);

    fill(more, 112);
    extract(more, 112, 5);
    extract(more, 112, 6);
    extract(more, 112, 6);
    list(more, 112);

    start(both, 119);
    batch(both, 119, LIST(other_order));
    batch(both, 119, LIST(in_turn));
    list(both, 119);

    // room for the first of the two alone
    start(one, 118);
    batch(one, 118, LIST(in_turn));

    try_out(tried, 71);

    convert();
    uses();
    simplify(words, 71, "longer p, one step", 1, WORDS(proof) + 1);
    simplify(words, 71, "longer p, a word short", 2, WORDS(proof) - 1);
    simplify(words, 71, "longer p", 2, WORDS(proof) + 1);
    return 0;
}
