// vectors LISTING FILE..: runs scripts of tests/vectors (PROTOCOL.md there) against the static library.
// Makes the calls of the level in force and passes over those of another. Prints a line a file that counts both, and
// each wrong answer with its file and line. The exit status is 1 where an answer was wrong or a file compared none.
// After each call it also compares what was lent with what it was before: the signature and the term, the register
// where it may not change (where a say adds nothing, only its latest day may; by a batch of no items, nothing), the
// register's words past the used count, an output's words past the result, all of them where refused, the list of marks
// where it may not change, and the words behind each buffer.
#define _POSIX_C_SOURCE 200809L
#include <stdarg.h>
#include <stdio.h>
#include <stdlib.h>
#include <string.h>
#include <unistd.h>
#include "../include/aura0.h"

// the level in force: requests 1 to LEVEL of document 02 (request 4 changed no answer, so it has no level of its own)
enum { LEVEL = 10, MOST = 1 << 21, GUARD = 16, PATTERN = 0x5a5a5a5a };

// a lent list of words, with a guard behind it, and what it held before the call
struct lent {
    uint32_t words[MOST + GUARD], before[MOST + GUARD];
    size_t length;
};

static struct lent signature, reg, marks, term, workspace, homes, surveys, output;
static uint32_t n;
static unsigned long level;
static const char *listing;

static const char *file;
static size_t line_number;
// of a file, or of all: scripts with a call of the level in force, answers compared, wrong ones; scripts whose calls
// are all of another level, and answers of another level
struct count {
    size_t scripts, answers, wrong, scripts_passed, answers_passed;
};
static struct count count;
// the calls of the script so far: made, and passed over
static size_t made, passed;
// the answer lines of the last call, and those that no answer line was compared with yet
static char *answer;
static const char *expected_next;
static size_t answer_room, answer_length;

static void stop(const char *why)
{
    fprintf(stderr, "%s:%zu: %s\n", file, line_number, why);
    exit(1);
}

static void wrong_answer(const char *expected, const char *got, size_t got_length)
{
    count.wrong++;
    printf("%s:%zu: wrong: expected \"%s\", got \"%.*s\"\n", file, line_number, expected, (int)got_length, got);
}

static void put(const char *format, ...)
{
    va_list list;
    if (answer_room - answer_length < 512) {
        answer_room = 2 * answer_room + 1024;
        answer = realloc(answer, answer_room);
        if (answer == NULL)
            stop("no memory");
    }
    va_start(list, format);
    answer_length += vsnprintf(answer + answer_length, answer_room - answer_length, format, list);
    va_end(list);
}

static void put_words(const uint32_t *words, size_t length)
{
    for (size_t i = 0; i < length; i++)
        put(" %08x", words[i]);
}

static void fill(struct lent *to, size_t length, uint32_t word)
{
    if (length > MOST)
        stop("too many words");
    to->length = length;
    for (size_t i = 0; i < length; i++)
        to->words[i] = word;
}

// what stands in a line behind its first word, if that is the name
static const char *after(const char *line, const char *name)
{
    size_t length = strlen(name);
    return strncmp(line, name, length) == 0 && (line[length] == 0 || line[length] == ' ') ? line + length : NULL;
}

// 8-digit hexadecimal words, each behind a blank, up to a bar or the end of the line; where they end
static const char *read_words(struct lent *to, const char *rest)
{
    to->length = 0;
    while (*rest != 0 && strncmp(rest, " |", 2) != 0) {
        char *end;
        unsigned long word = strtoul(rest + 1, &end, 16);
        if (*rest != ' ' || end != rest + 9 || to->length == MOST)
            stop("not a list of words");
        to->words[to->length++] = (uint32_t)word;
        rest = end;
    }
    return rest;
}

// what is left of a line
static void read_last(struct lent *to, const char *rest)
{
    if (*read_words(to, rest) != 0)
        stop("more than a list of words");
}

// what stands behind a bar
static const char *behind_bar(const char *rest)
{
    if (strncmp(rest, " |", 2) != 0)
        stop("no bar");
    rest += 2;
    // of blanks in a row, the last one counts
    while (rest[0] == ' ' && rest[1] == ' ')
        rest++;
    return rest;
}

// a decimal number behind a blank
static unsigned long read_number(const char **rest, unsigned long most)
{
    char *end;
    unsigned long number = strtoul(*rest + 1, &end, 10);
    if (**rest != ' ' || end == *rest + 1 || number > most)
        stop("not a number");
    *rest = end;
    return number;
}

static void keep(struct lent *list)
{
    for (size_t i = 0; i < GUARD; i++)
        list->words[list->length + i] = PATTERN;
    memcpy(list->before, list->words, (list->length + GUARD) * sizeof(uint32_t));
}

static void same_from(const struct lent *list, size_t start, const char *what)
{
    if (memcmp(list->words + start, list->before + start, (list->length + GUARD - start) * sizeof(uint32_t)) != 0) {
        count.wrong++;
        printf("%s:%zu: wrong: the %s changed\n", file, line_number, what);
    }
}

// before a call with a term, or a list of rules or items, and a workspace of its own
static void lend(size_t words, const char *rest)
{
    read_last(&term, rest);
    fill(&workspace, words, PATTERN);
    keep(&signature);
    keep(&reg);
    keep(&marks);
    keep(&term);
    keep(&workspace);
}

// what a call may change of the register, and the places of the latest day and of the first record
enum changes { NOTHING, LATEST_DAY, RECORDS };
enum { LATEST = 2, HEADER = 4 };

// after it
static void take_back(enum changes changes)
{
    same_from(&signature, 0, "signature");
    same_from(&term, 0, "term");
    same_from(&workspace, workspace.length, "memory behind the workspace");
    if (changes == RECORDS && reg.words[0] > reg.length)
        stop("more words used than there are");
    if (changes == LATEST_DAY)
        reg.before[LATEST] = reg.words[LATEST];
    same_from(&reg, changes == RECORDS ? reg.words[0] : 0, "register");
}

// the list of marks: from the word on where it may not change, all of it where the call does not set or remove one
static void take_back_marks(size_t start)
{
    same_from(&marks, start < marks.length ? start : marks.length, "list of marks");
}

#define LENT(list) (list).words, (list).length
// what every call but a read is lent first
#define STATE LENT(signature), n, LENT(reg)

// what a request and an extract ask for, and on which day
struct ask {
    uint32_t day, operation, extract, delivery;
};
#define ASKED(ask) (ask).day, (ask).operation, (ask).extract, (ask).delivery

static struct ask read_ask(const char **rest)
{
    struct ask ask;
    ask.day = read_number(rest, UINT32_MAX);
    ask.operation = read_number(rest, UINT32_MAX);
    ask.extract = read_number(rest, UINT32_MAX);
    ask.delivery = read_number(rest, UINT32_MAX);
    return ask;
}

// after a call with an output: its words past the result may not change
static void take_back_output(size_t result)
{
    if (result > output.length)
        stop("more words written than there are");
    same_from(&output, result, "output");
}

typedef uint64_t converter(const uint32_t *term, size_t term_words, uint32_t *output, size_t output_words, size_t *written);

// makes the call of a converter, and puts its answer; the result has as many words as the term
static void convert(const char *name, converter *to, const char *rest)
{
    size_t written = PATTERN;
    fill(&output, read_number(&rest, MOST), PATTERN);
    keep(&output);
    lend(0, rest);
    uint64_t code = to(LENT(term), LENT(output), &written);
    size_t result = code == 0 ? term.length : 0;
    take_back(NOTHING);
    take_back_output(result);
    if (written != result)
        wrong_answer("as many words written as there are in the result", "another number", 14);
    put("%s %u %u", name, aura0_number(code), aura0_place(code));
    put_words(output.words, result);
}

// makes the call of a line, and puts its answer; whether the line was one
static int call(const char *line)
{
    const char *rest;
    // the last call's answer goes, also where this one puts none
    answer_length = 0;
    put("");
    if ((rest = after(line, "open")) != NULL) {
        size_t words = read_number(&rest, MOST);
        uint32_t mode = read_number(&rest, UINT32_MAX);
        lend(words, rest);
        uint64_t code = aura0_open(LENT(signature), n, mode, LENT(reg), LENT(marks), LENT(term), LENT(workspace));
        take_back(code == 0 ? RECORDS : NOTHING);
        take_back_marks(code == 0 ? 1 : 0);
        put("open %u %u", aura0_number(code), aura0_place(code));
    } else if ((rest = after(line, "say")) != NULL) {
        size_t words = read_number(&rest, MOST);
        uint32_t day = read_number(&rest, UINT32_MAX), principal = read_number(&rest, UINT32_MAX);
        uint32_t first = read_number(&rest, UINT32_MAX), last = read_number(&rest, UINT32_MAX), added = PATTERN;
        lend(words, rest);
        uint64_t code = aura0_say(STATE, day, principal, first, last, LENT(term), LENT(workspace), &added);
        take_back(code != 0 ? NOTHING : added == 1 ? RECORDS : LATEST_DAY);
        put("say %u %u %u", aura0_number(code), aura0_place(code), added);
    } else if ((rest = after(line, "request")) != NULL) {
        size_t words = read_number(&rest, MOST);
        struct ask ask = read_ask(&rest);
        lend(words, rest);
        uint64_t code = aura0_request(STATE, ASKED(ask), LENT(term), LENT(workspace));
        take_back(code == 0 ? RECORDS : NOTHING);
        put("request %u %u", aura0_number(code), aura0_place(code));
    } else if ((rest = after(line, "batch")) != NULL) {
        size_t words = read_number(&rest, MOST);
        uint32_t day = read_number(&rest, UINT32_MAX), index = PATTERN;
        lend(words, rest);
        uint64_t code = aura0_batch(STATE, day, LENT(term), LENT(workspace), &index);
        take_back(code == 0 && term.length > 0 ? RECORDS : NOTHING);
        put("batch %u %u %u", aura0_number(code), index, aura0_place(code));
    } else if ((rest = after(line, "extract")) != NULL) {
        size_t words = read_number(&rest, MOST);
        struct ask ask = read_ask(&rest);
        fill(&output, read_number(&rest, MOST), PATTERN);
        rest = read_words(&homes, behind_bar(rest));
        rest = read_words(&surveys, behind_bar(rest));
        keep(&homes);
        keep(&surveys);
        keep(&output);
        lend(words, behind_bar(rest));
        uint64_t code = aura0_extract(STATE, ASKED(ask), LENT(term), LENT(homes), LENT(surveys), LENT(output), LENT(workspace));
        take_back(code == 0 ? RECORDS : NOTHING);
        same_from(&homes, 0, "list of homes");
        same_from(&surveys, 0, "table of surveys");
        size_t result = code == 0 ? 2 * homes.length : 0;
        take_back_output(result);
        put("extract %u %u", aura0_number(code), aura0_place(code));
        put_words(output.words, result);
    } else if ((rest = after(line, "tonamed")) != NULL) {
        convert("tonamed", aura0_to_named, rest);
    } else if ((rest = after(line, "fromnamed")) != NULL) {
        convert("fromnamed", aura0_from_named, rest);
    } else if ((rest = after(line, "uses")) != NULL) {
        uint32_t from = read_number(&rest, UINT32_MAX);
        size_t count = PATTERN;
        lend(0, rest);
        uint64_t code = aura0_uses(LENT(term), from, &count);
        take_back(NOTHING);
        put("uses %u %u %zu", aura0_number(code), aura0_place(code), count);
    } else if ((rest = after(line, "check")) != NULL) {
        size_t words = read_number(&rest, MOST), type_words = PATTERN;
        uint32_t day = read_number(&rest, UINT32_MAX);
        lend(words, rest);
        uint64_t without = aura0_check(STATE, day, LENT(term), LENT(workspace));
        take_back(NOTHING);
        lend(words, rest);
        uint64_t code = aura0_check_type(STATE, day, LENT(term), LENT(workspace), &type_words);
        take_back(NOTHING);
        if (code != without)
            wrong_answer("the same answer with and without the type", "two answers", 11);
        if (type_words > words)
            stop("a type past the workspace");
        put("check %u %u", aura0_number(code), aura0_place(code));
        put_words(workspace.words, type_words);
    } else if ((rest = after(line, "simplify")) != NULL) {
        size_t words = read_number(&rest, MOST), steps = PATTERN, written = PATTERN;
        uint32_t day = read_number(&rest, UINT32_MAX);
        size_t budget = read_number(&rest, SIZE_MAX);
        fill(&output, read_number(&rest, MOST), PATTERN);
        keep(&output);
        lend(words, rest);
        uint64_t code = aura0_simplify(STATE, day, LENT(term), budget, LENT(output), LENT(workspace), &steps, &written);
        take_back(NOTHING);
        take_back_output(written);
        put("simplify %u %u %zu", aura0_number(code), aura0_place(code), steps);
        put_words(output.words, written);
    } else if ((rest = after(line, "read")) != NULL) {
        size_t record = read_number(&rest, SIZE_MAX), start = PATTERN, words = PATTERN;
        uint32_t kind = PATTERN;
        lend(0, rest);
        uint64_t code = aura0_read(LENT(reg), record, &kind, &start, &words);
        take_back(NOTHING);
        if (start > reg.length || words > reg.length - start)
            stop("a body past the register");
        put("read %u %u %u", aura0_number(code), aura0_place(code), kind);
        put_words(reg.words + start, words);
    } else if ((rest = after(line, "mark")) != NULL) {
        uint32_t number = read_number(&rest, UINT32_MAX);
        lend(0, rest);
        uint64_t code = aura0_mark(LENT(reg), LENT(marks), number);
        take_back(NOTHING);
        take_back_marks(code == 0 ? 1 + 4 * marks.words[0] : 0);
        put("mark %u %u", aura0_number(code), aura0_place(code));
    } else if ((rest = after(line, "return")) != NULL) {
        uint32_t number = read_number(&rest, UINT32_MAX);
        lend(0, rest);
        uint64_t code = aura0_return(LENT(reg), LENT(marks), number);
        // it changes the first three words of the register, and the count of the marks
        if (code == 0)
            memcpy(reg.before, reg.words, (HEADER - 1) * sizeof(uint32_t));
        take_back(NOTHING);
        take_back_marks(code == 0 ? 1 : 0);
        put("return %u %u", aura0_number(code), aura0_place(code));
    } else if (after(line, "dumpmarks") != NULL) {
        put("marks %zu:", marks.length);
        put_words(marks.words, marks.length);
    } else if (after(line, "dump") != NULL) {
        uint32_t kind;
        size_t start, words;
        // every read of a broken register is refused by 2 or 3
        uint32_t number = aura0_number(aura0_read(LENT(reg), 0, &kind, &start, &words));
        size_t used = number == AURA0_REGISTER_LENGTH || number == AURA0_REGISTER_BROKEN ? reg.length : reg.words[0];
        put("dump %zu:", used);
        put_words(reg.words, used);
    } else if (after(line, "list") != NULL) {
        char name[] = "/tmp/aura0-register-XXXXXX", command[4096], text[256];
        int descriptor = mkstemp(name);
        FILE *out = descriptor < 0 ? NULL : fdopen(descriptor, "wb");
        if (out == NULL)
            stop("no file for the register");
        for (size_t i = 0; i < reg.length; i++)
            for (int shift = 0; shift < 32; shift += 8)
                putc(reg.words[i] >> shift & 255, out);
        fclose(out);
        snprintf(command, sizeof(command), "'%s' < %s", listing, name);
        FILE *in = popen(command, "r");
        if (in == NULL)
            stop("the listing program does not start");
        while (fgets(text, sizeof(text), in) != NULL)
            put("%slist %.*s", answer_length > 0 ? "\n" : "", (int)strcspn(text, "\n"), text);
        if (pclose(in) != 0)
            stop("the listing program failed");
        unlink(name);
    } else
        return 0;
    return 1;
}

// the end of a script
static void end_script(void)
{
    if (made > 0)
        count.scripts++;
    else if (passed > 0)
        count.scripts_passed++;
    made = passed = 0;
}

// a line that sets the state; whether it was one
static int set(const char *line)
{
    const char *rest;
    if (after(line, "new") != NULL) {
        end_script();
        signature.length = reg.length = 0;
        fill(&marks, AURA0_MARK_LIST, 0);
        n = 0;
        level = 0;
    } else if ((rest = after(line, "level")) != NULL) {
        level = read_number(&rest, 99);
    } else if ((rest = after(line, "n")) != NULL) {
        n = read_number(&rest, UINT32_MAX);
    } else if ((rest = after(line, "zeros")) != NULL) {
        fill(&reg, read_number(&rest, MOST), 0);
    } else if ((rest = after(line, "sig")) != NULL)
        read_last(&signature, rest);
    else if ((rest = after(line, "register")) != NULL)
        read_last(&reg, rest);
    else if ((rest = after(line, "marks")) != NULL)
        read_last(&marks, rest);
    else
        return 0;
    return 1;
}

// an answer line, against the next line of the last call's answer
static void compare(const char *expected)
{
    count.answers++;
    size_t length = expected_next == NULL ? 0 : strcspn(expected_next, "\n");
    if (expected_next == NULL || strlen(expected) != length || strncmp(expected, expected_next, length) != 0)
        wrong_answer(expected, expected_next == NULL ? "" : expected_next, length);
    if (expected_next != NULL)
        expected_next = expected_next[length] == '\n' ? expected_next + length + 1 : NULL;
}

// no line of the last call's answer may be left
static void all_compared(void)
{
    if (expected_next != NULL)
        wrong_answer("no more", expected_next, strlen(expected_next));
    expected_next = NULL;
}

static void run(void)
{
    FILE *in = fopen(file, "r");
    char *line = NULL;
    size_t room = 0;
    line_number = 0;
    if (in == NULL)
        stop("cannot be read");
    set("new");
    while (getline(&line, &room, in) >= 0) {
        line_number++;
        line[strcspn(line, "\r\n")] = 0;
        if (line[0] == 0 || line[0] == '#')
            continue;
        if (line[0] == '>' && line[1] == ' ') {
            if (level == LEVEL)
                compare(line + 2);
            else
                count.answers_passed++;
            continue;
        }
        all_compared();
        if (set(line))
            continue;
        if (level != LEVEL) {
            passed++;
            continue;
        }
        if (!call(line))
            stop("not a line of a script");
        made++;
        expected_next = answer;
    }
    if (ferror(in))
        stop("cannot be read to its end");
    all_compared();
    end_script();
    free(line);
    fclose(in);
}

static void print_count(void)
{
    printf("%zu scripts, %zu answers, %zu wrong", count.scripts, count.answers, count.wrong);
    if (count.answers_passed > 0)
        printf("; passed over, not of level %d: %zu scripts, %zu answers", LEVEL, count.scripts_passed, count.answers_passed);
}

int main(int arguments, char **argument)
{
    int status = 0;
    struct count all = { 0 };
    if (arguments < 3) {
        fprintf(stderr, "vectors LISTING FILE..\n");
        return 2;
    }
    listing = argument[1];
    for (int i = 2; i < arguments; i++) {
        count = (struct count){ 0 };
        file = argument[i];
        run();
        printf("%s: ", file);
        print_count();
        // a file that compares nothing is no test
        if (count.answers == 0)
            printf(": FAILS: %s", count.scripts_passed > 0 ? "every script is of another level" : "it has no answer to compare");
        printf("\n");
        if (count.wrong > 0 || count.answers == 0)
            status = 1;
        all.scripts += count.scripts;
        all.answers += count.answers;
        all.wrong += count.wrong;
        all.scripts_passed += count.scripts_passed;
        all.answers_passed += count.answers_passed;
    }
    count = all;
    printf("%d files: ", arguments - 2);
    print_count();
    printf("\n");
    return status;
}
