// The words of terms, and document 01's sample: its signature, the desk's rule r, what a3 says and the proof p, with
// days. For the C programs of host/, bench/ and tests/.
#ifndef AURA0_SAMPLE_H
#define AURA0_SAMPLE_H

#include "../include/aura0.h"

#define WORD(tag, payload) ((uint32_t)(tag) * 16777216u + (uint32_t)(payload))
#define P WORD(1, 0)
#define S WORD(3, 0)
#define N WORD(4, 0)
#define V(n) WORD(5, n)
#define C(n) WORD(6, n)
#define SAYS WORD(7, 0)
#define PI WORD(8, 0)
#define LAM WORD(9, 0)
#define APP WORD(10, 0)
#define TEXT(n) WORD(11, n)
#define NAME(n) WORD(12, n)
#define SIGN(n) WORD(13, n)
#define RET WORD(14, 0)
#define BIND WORD(15, 0)

// a list as it is lent: its words and how many they are
#define WORDS(list) (sizeof(list) / sizeof((list)[0]))
#define LIST(list) list, WORDS(list)

// an item of a batch: operation 0, extract k, delivery u, and the words of a proof behind their number
#define ITEM(k, u, ...) 0, k, u, WORDS(((const uint32_t[]){ __VA_ARGS__ })), __VA_ARGS__

// C0 = Pi S P, C1 = Pi S Pi S P, C2 = Pi S P, C3 = Pi App C2 s7 P; one operation
#define CONSTANTS 3, PI, S, P, 5, PI, S, PI, S, P, 3, PI, S, P, 5, PI, APP, C(2), TEXT(7), P
static const uint32_t signature[] = { CONSTANTS };
enum { OPERATIONS = 1 };

// the first and the last day of the rule and of what a3 says, and the day on which a3 says it and a request is made
enum { RULE_FIRST = 10, RULE_LAST = 20, SAY_FIRST = 12, SAY_LAST = 18, DAY = 15 };

// the desk's rule, what r signs: Pi S Pi N Pi Says V0 App C2 V1 App C0 V2
#define RULE PI, S, PI, N, PI, SAYS, V(0), APP, C(2), V(1), APP, C(0), V(2)
static const uint32_t rules[] = { 0, RULE_FIRST, RULE_LAST, 13, RULE };

// what a3 says of the extract k, App C2 sk, and for 7 the proof p = Bind r Ret a0 App App App V0 s7 a3 Sign3 App C2 s7
#define OPENED(k) APP, C(2), TEXT(k)
#define PROOF(k) BIND, SIGN(0), RULE, RET, NAME(0), APP, APP, APP, V(0), TEXT(k), NAME(3), SIGN(3), OPENED(k)
static const uint32_t proposition[] = { OPENED(7) };
static const uint32_t proof[] = { PROOF(7) };

// a proof of what p proves that uses the receipt of extract k and delivery u too: Bind Sign0 App App C1 sk su p
#define PROOF_BY_RECEIPT(k, u) BIND, SIGN(0), APP, APP, C(1), TEXT(k), TEXT(u), PROOF(k)

// p with two parts that it does not need: Bind r once more before it, whose variable is unused, and what a3 says handed
// to a Lam
#define LONGER_PROOF \
    BIND, SIGN(0), RULE, BIND, SIGN(0), RULE, APP, LAM, SAYS, NAME(3), OPENED(7), RET, NAME(0), APP, APP, APP, V(1), \
        TEXT(7), NAME(3), V(0), SIGN(3), OPENED(7)

// the least workspace
static uint32_t workspace[12288];

// no marks, for a register that is never returned
#define NO_MARKS (uint32_t[]){ 0 }, 0

#endif
