// Compiles only if the numbers of include/aura0.h are those of documents 01 and 02. The other programs use their names,
// so nothing else would show that two of them are exchanged.
#include "../include/aura0.h"

#define IS(name, number) _Static_assert(AURA0_##name == (number), #name)

// refusals
IS(WORKSPACE_SHORT, 1);
IS(REGISTER_LENGTH, 2);
IS(REGISTER_BROKEN, 3);
IS(BAD_SIGNATURE, 4);
IS(BAD_NUMBER, 5);
IS(TERM_LENGTH, 6);
IS(MALFORMED, 7);
IS(NESTING, 8);
IS(UNBOUND_VARIABLE, 9);
IS(UNKNOWN_CONSTANT, 10);
IS(CONDITION_FAILS, 11);
IS(TYPE_TOO_LONG, 12);
IS(ANOTHER_PROPOSITION, 13);
IS(NOT_HELD, 14);
IS(DESK_SAYS, 15);
IS(REGISTER_FULL, 16);
IS(PAST_LAST_RECORD, 17);
IS(NOT_A_FUNCTION, 18);
IS(ARGUMENT_MISMATCH, 19);
IS(VARIABLE_ESCAPES, 20);
IS(OUT_OF_FORM, 21);
IS(HELD_OUTSIDE, 22);
IS(DAY_BEFORE_LATEST, 23);
IS(UNBOUND, 24);
IS(OUTPUT_SHORT, 25);
IS(STEP_REMAINS, 26);
IS(NO_MARK, 27);
IS(MARKS_FULL, 28);

// kinds of records
IS(RULE, 1);
IS(SAY, 2);
IS(GRANT, 3);
IS(RECEIPT, 4);

// the code of a home without a survey
IS(NO_SURVEY, 4294967295);

// modes of registers, and the words of a list of marks
IS(RELEASE, 0);
IS(TRIAL, 1);
IS(MARK_LIST, 33);
