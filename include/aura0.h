// The calls of the permission register, simplified proofs, the converters of the edition with named variables, and a
// count of free variables, for programs in C. The library is target/staticlib/libhost.a; `bash host/run` builds it.
//
// Each list of 32-bit words is lent as a pointer and a number of words; the pointer is not null, also where the
// number is 0. Buffers that are written must not overlap any other buffer of the call.
// An answer is 0 for success, else the refusal's number times 4294967296 plus its place (0 where none is named).
// A refusal leaves the register, a list of marks and an output as they were. The workspace, where a call has one, needs
// at least 12,288 words, and what it holds after a call is free, except for a type handed back.
#ifndef AURA0_H
#define AURA0_H

#include <stddef.h>
#include <stdint.h>

#ifdef __cplusplus
extern "C" {
#endif

// Document 01's refusal numbers, in the order of its table: "Tests run in this order". Beside 11 stand 18 to 20 of
// document 02, slip 2, "each met where 11 was"; behind 5 and beside 14 stand 23 and 22 of its slip 5. The list of a
// batch has 5 and 7 before other tests: see aura0_batch.
enum {
    AURA0_WORKSPACE_SHORT = 1,      // workspace short
    AURA0_REGISTER_LENGTH = 2,      // register length
    AURA0_REGISTER_BROKEN = 3,      // register broken
    AURA0_BAD_SIGNATURE = 4,        // signature; place: first bad constant's length word
    AURA0_BAD_NUMBER = 5,           // n, operation, principal, extract or delivery out of range, a permit or receipt
                                    // type wrong or missing, a first day after the last, a mode of register that is
                                    // neither release nor trial, or a batch of over 16 items
    AURA0_DAY_BEFORE_LATEST = 23,   // say, request and batch: a day before the register's latest
    AURA0_DESK_SAYS = 15,           // say by principal 0
    AURA0_TERM_LENGTH = 6,          // term empty or too long
    AURA0_MALFORMED = 7,            // malformed; place: first bad word, or the term's length; an item of a batch that
                                    // its list ends inside; place 0
    AURA0_NESTING = 8,              // nesting; place: first word at depth 33
    AURA0_UNBOUND_VARIABLE = 9,     // unbound variable
    AURA0_UNKNOWN_CONSTANT = 10,    // unknown constant
    AURA0_CONDITION_FAILS = 11,     // a rule's condition fails, other than 18 to 20
    AURA0_NOT_A_FUNCTION = 18,      // the function of an App has no Pi type
    AURA0_ARGUMENT_MISMATCH = 19,   // the argument of an App has another type than the domain
    AURA0_VARIABLE_ESCAPES = 20,    // the variable of a Bind stands in what its body proves
    AURA0_TYPE_TOO_LONG = 12,       // type over 256 words
    AURA0_ANOTHER_PROPOSITION = 13, // another proposition proved
    AURA0_NOT_HELD = 14,            // signature not held; place: the first Sign with 14 or 22, which decides
    AURA0_HELD_OUTSIDE = 22,        // signature held only outside the day; in the place of 14
    AURA0_REGISTER_FULL = 16,       // words used and the new entry's together pass the register's length
    AURA0_PAST_LAST_RECORD = 17,    // read past the last record
    // document 02, slip 3: before every test of the table
    AURA0_OUT_OF_FORM = 21,         // an extract's list of homes, table of surveys or output out of form
    // document 02, slip 6: of the two converters alone, after 6 to 8
    AURA0_UNBOUND = 24,             // unbound name or variable; place: the first such word
    // document 02, slip 9: of simplify alone, after check's tests, with 6 and 8 of a step's result
    AURA0_STEP_REMAINS = 26,        // a step remains when the budget is used
    // document 02, slips 6 and 9: of the converters and of simplify, last
    AURA0_OUTPUT_SHORT = 25,        // output shorter than what is to be written
    // document 02, slip 10: of aura0_mark and aura0_return alone, after 2 and 3, in this order
    AURA0_NO_MARK = 27,             // a release register, no list of marks, or a mark that is unknown or at no end
    AURA0_MARKS_FULL = 28           // a mark would be the ninth
};

// What stands for the code of a home without a survey.
#define AURA0_NO_SURVEY UINT32_C(4294967295)

// A call takes less stack than this, in bytes; the frames of its caller are the host's own and come on top. No proof
// speaks of the stack: tests/stack.c measures it. The deepest is the reading of 2,048 words App, each within the one
// before, in a batch.
#define AURA0_STACK 262144

// The kinds of records.
enum { AURA0_RULE = 1, AURA0_SAY = 2, AURA0_GRANT = 3, AURA0_RECEIPT = 4 };

// The modes of registers, word 3 of each, which an opening fixes.
enum { AURA0_RELEASE = 0, AURA0_TRIAL = 1 };

// The words of a list of marks.
#define AURA0_MARK_LIST 33

// The two parts of an answer, for lists of fewer than 4294967296 words together.
static inline uint32_t aura0_number(uint64_t answer) { return (uint32_t)(answer >> 32); }
static inline uint32_t aura0_place(uint64_t answer) { return (uint32_t)answer; }

// Days are numbers of 32 bits. Word 2 of a register is its latest day, 0 after an opening. The day of a say, a request
// or a batch may not be before it. Each say and request that succeeds, and each batch that grants a request, sets it to
// its own day. A statement holds from its first to its last day, both included, a receipt from its grant's day on; for
// a call only statements that hold on its day count.

// Writes the register anew with the rules of a rule list, each a principal, a first day, a last day, a length and a
// proposition; a refusal of a rule is at its principal's index. It has no day: a signature in a rule may be any earlier
// rule, whatever its days. `mode` is AURA0_RELEASE or AURA0_TRIAL. Where it succeeds no mark stands: word 0 of the
// marks becomes 0, if there is one, and no other word of them changes. For a register that gets no marks, lend 0 words.
uint64_t aura0_open(const uint32_t *signature, size_t signature_words, uint32_t n, uint32_t mode,
                    uint32_t *register_, size_t register_words, uint32_t *marks, size_t marks_words,
                    const uint32_t *rules, size_t rules_words, uint32_t *workspace, size_t workspace_words);

// Marks of a trial register. A list of marks has AURA0_MARK_LIST words: word 0 counts the marks that stand, up to 8,
// and four words of each follow, in the order in which they were set: its number, the words used, the records, the
// latest day. Words behind the marks that stand are not looked at and stay. The list belongs to its register: lend it
// to the opening and to these two calls, as the last of them left it. No other call needs it.
// On a release register both calls are 27, and so they are with a list of another length or a count over 8.

// Sets a mark at the end of the records. One of the number that stands is replaced, and is then the last that was set;
// a ninth is 28. The register is only read.
uint64_t aura0_mark(const uint32_t *register_, size_t register_words, uint32_t *marks, size_t marks_words, uint32_t number);

// Brings the register back to a mark: words used, records and latest day are what the mark keeps, and no other word is
// changed, so later records are no longer read. The mark stays, those set after it are removed. Where none of the
// number stands, or where it is not at the header's end or a record's with its count of records, it is 27.
uint64_t aura0_return(uint32_t *register_, size_t register_words, uint32_t *marks, size_t marks_words, uint32_t number);

// Adds the principal's statement for the days from first to last, unless it stands there with these days; *added is 1
// where it was added, else 0. Either way the latest day becomes `day`, which need not be one of the statement's.
uint64_t aura0_say(const uint32_t *signature, size_t signature_words, uint32_t n, uint32_t *register_, size_t register_words,
                   uint32_t day, uint32_t principal, uint32_t first, uint32_t last,
                   const uint32_t *proposition, size_t proposition_words,
                   uint32_t *workspace, size_t workspace_words, uint32_t *added);

// Adds a grant of the day and its receipt where the proof is one of Says a0 App C(2 * operation) s(extract), and sets
// the latest day.
uint64_t aura0_request(const uint32_t *signature, size_t signature_words, uint32_t n, uint32_t *register_, size_t register_words,
                       uint32_t day, uint32_t operation, uint32_t extract, uint32_t delivery,
                       const uint32_t *proof, size_t proof_words, uint32_t *workspace, size_t workspace_words);

// Makes up to 16 requests of one day, of which all are granted or none. The list has items one behind another, each an
// operation, an extract, a delivery, a length and a proof of so many words. Over 16 items, one that the list ends
// inside included, are 5 at index 0 and place 0, before all else. Then items are taken in turn, each through all tests
// of a request as if those before it were granted: their receipts are held, and their words are used. One that the list
// ends inside is 7 at its index and place 0, before its own tests. The first item that is refused gives number and
// place, and *index is its index; the register is left as it was, whatever items stood before it. Where none is
// refused, *index is 0 and the register is what these requests, made one after another, leave.
// A batch of no words makes tests 1 to 4, 5 for n and the permit and receipt types, and 23, all at index 0. It changes
// no word of the register and sets no day, also where it succeeds.
uint64_t aura0_batch(const uint32_t *signature, size_t signature_words, uint32_t n, uint32_t *register_, size_t register_words,
                     uint32_t day, const uint32_t *items, size_t items_words,
                     uint32_t *workspace, size_t workspace_words, uint32_t *index);

// The extract desk. The list has at most 1,024 homes, strictly rising. The table has rows of a home and a code, flat,
// at most 4,096, its homes strictly rising and no code AURA0_NO_SURVEY. The output has at least two words a home.
// Anything else is 21 at 0, before the request is tried. Then makes the request, and where it is granted writes each
// home of the list, in its order, with its code or AURA0_NO_SURVEY at the front of the output. A refusal leaves
// register and output as they were.
uint64_t aura0_extract(const uint32_t *signature, size_t signature_words, uint32_t n, uint32_t *register_, size_t register_words,
                       uint32_t day, uint32_t operation, uint32_t extract, uint32_t delivery,
                       const uint32_t *proof, size_t proof_words,
                       const uint32_t *homes, size_t homes_words, const uint32_t *surveys, size_t surveys_words,
                       uint32_t *output, size_t output_words, uint32_t *workspace, size_t workspace_words);

// Checks a term against the register on a day, without the type. The day may be before the latest (no 23), and none is
// set.
uint64_t aura0_check(const uint32_t *signature, size_t signature_words, uint32_t n, const uint32_t *register_, size_t register_words,
                     uint32_t day, const uint32_t *term, size_t term_words, uint32_t *workspace, size_t workspace_words);

// The same; the type is the first *type_words words of the workspace, none where refused.
uint64_t aura0_check_type(const uint32_t *signature, size_t signature_words, uint32_t n, const uint32_t *register_, size_t register_words,
                          uint32_t day, const uint32_t *term, size_t term_words,
                          uint32_t *workspace, size_t workspace_words, size_t *type_words);

// Simplifies a proof for review: what it gives has the type of the term, without parts that are not needed. Check's
// tests come first, as for aura0_check. Then steps are taken until none is left:
//     App Lam d b e                                   becomes b, filled with e
//     Bind Ret a e b                                  becomes b, filled with e
//     Bind e b, where b does not use its binder,      becomes b, its free variables one lower
// at the root, in the function of an App, the body of a Lam, the proof of a Ret and both children of a Bind, and not in
// arguments, domains, principals, propositions or Signs. The first place in word order goes first. Where a step is left
// and `budget` steps were taken it is 26 at 0, whatever the step would give; a step that gives over 2,048 words is 6 at
// 0, and one that nests too deep is 8 at the first word at depth 33 of what it gives; at the end an output shorter than
// the result is 25 at 0. 2,048 words always suffice. The result stands at the front of the output, whose words past it
// are unchanged; a refusal writes nothing. *steps is how many steps were taken and *written how many words were
// written, both 0 where refused. The register is not changed, and the day is check's (no 23).
uint64_t aura0_simplify(const uint32_t *signature, size_t signature_words, uint32_t n, const uint32_t *register_, size_t register_words,
                        uint32_t day, const uint32_t *term, size_t term_words, size_t budget,
                        uint32_t *output, size_t output_words, uint32_t *workspace, size_t workspace_words,
                        size_t *steps, size_t *written);

// The edition with named variables. There a Pi, a Lam and a Bind have a name as payload, any number of 24 bits, and a
// variable has a name for its number: it means the nearest binder with that name in whose body it stands. A domain, and
// the proof of a Bind, are not in the body, and a Sign's proposition starts with no names. All else is as in document
// 01's words, and a term has as many words in either edition.
// The two converters have no register and no workspace. They make the tests 6 to 8 first; then 24, at the first word
// that is an unbound name or variable; then 25, at 0, for an output shorter than the term. The result stands at the
// front of the output, whose words past it are unchanged; a refusal writes nothing. *written is how many words were
// written, 0 where refused.

// Converts document 01's words into names: a binder's name is the count of binders in whose body it stands, within its
// Sign if any.
uint64_t aura0_to_named(const uint32_t *term, size_t term_words, uint32_t *output, size_t output_words, size_t *written);

// Converts names into document 01's words.
uint64_t aura0_from_named(const uint32_t *term, size_t term_words, uint32_t *output, size_t output_words, size_t *written);

// For audit work, on a term in document 01's words, without a register and a workspace: the tests 6 to 8, then *count is
// how many variables stand free in the term that are numbered `from` or more, each as often as it stands; 0 where
// refused. A variable that has its binder in the term is not free, and under each binder passed a free one's number
// counts one less. Inside a Sign none is counted. Where `from` is over 16777215 the count is 0.
// Of a body, the second child of a Pi, a Lam or a Bind, lent as a term of its own, the count from 0 on less the count
// from 1 on is how often it uses its binder.
uint64_t aura0_uses(const uint32_t *term, size_t term_words, uint32_t from, size_t *count);

// Reads a record: its kind, and its body as the *words words of the register from *start on; all three are 0 where
// refused.
uint64_t aura0_read(const uint32_t *register_, size_t register_words, size_t record, uint32_t *kind, size_t *start, size_t *words);

#ifdef __cplusplus
}
#endif

#endif
