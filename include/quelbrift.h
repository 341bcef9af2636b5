/*
 * Quelbrift: rule circuits of feeder container ships. Link libquelbrift.a (x86-64; README.md says how to build it):
 *     cc -std=c11 -Iinclude program.c target/staticlib/libquelbrift.a -o program
 * examples/list.c is a whole program.
 *
 * Calls. Every function takes any numbers and any contents of the buffers. It ends, and does its work or refuses by a number. A
 * buffer is a pointer and then its length in elements; it may always be longer than needed, but for a list of measurements, for minutes,
 * for pairs and for the steps of a walk: there the length is the number of entries. The caller must see to three things. No pointer is
 * NULL, not even where the length is 0. It points to at least that many elements. A buffer that is written overlaps no other. No
 * function keeps a pointer or state, and calls from several threads at once do not disturb one another. A call needs at most 512 KiB of
 * stack. Bytes, nodes, measurements and steps are counted from 0.
 *
 * Vocabulary. A fact of the trade is a variable here, a stow an assignment, a row a term, a mark a literal, a clearance a prime
 * implicant, a blocker a prime implicant of the negation, the room a capacity, a reading a measurement. An assignment is a mask: bit i
 * is set where variable i is true (the fact is yes). A term is two masks: positive (marked yes) and negative (marked no). A half-known
 * stow is a partial assignment, given as a term: its literals are what is known. Its completions are the assignments that agree with it.
 *
 * Tables. A circuit is a table of uint32_t words, eleven a node: kind, variable, number of children, and eight children. Node i is the
 * eleven words from 11 * i on; the last node is the whole circuit. Kinds: 0 false, 1 true, 2 yes, 3 no, 4 pick (the first child where
 * the variable is false, the second where it is true), 5 both (all of its children). A pick has 2 children, a both 2 to 8, the others
 * 0. A child is the number of a node, lower than the node's own. Unused, and so 0: variable of false, true and both; the children past
 * the number of children.
 *
 * Texts. A circuit text is made of lines, each ended by byte 10 (newline), the last one too. The first is (circuit N), N the number
 * of variables, 1 to 40. One or more lines follow, each a form:
 *     (true)  (false)  (yes V)  (no V)  (pick V F F)  (both F F ...)  (line K)
 * V is a variable, below N. F is a form; both has two to eight. K is the number of an earlier line, the first after the header being
 * 0. A whole line is never (line K). One space stands between parts, none elsewhere. A number has one to four digits and no leading
 * zero. Each form makes one node, at its closing bracket: children first, from left to right. Only (line K) makes none: it means the
 * node of line K's form. The last line is the circuit, and every other line is used by a later one.
 */
#ifndef QUELBRIFT_H
#define QUELBRIFT_H

#include <stddef.h>
#include <stdint.h>

#ifdef __cplusplus
extern "C" {
#endif

/* The version. It is raised whenever this header or an answer of the archive changes. quelbrift_version() gives the archive's. */
#define QUELBRIFT_VERSION 7

/* The limits. */
#define QUELBRIFT_MAX_VARIABLES 40   /* the variables of a table: 1 to 40 */
#define QUELBRIFT_MAX_NODES 1024     /* its nodes: 1 to 1,024 */
#define QUELBRIFT_NODE_WORDS 11      /* the words of a node */
#define QUELBRIFT_MAX_CHILDREN 8     /* the children of a both: 2 to 8 */
#define QUELBRIFT_MAX_CAPACITY 4096  /* the capacity (room) of a listing: 0 to 4,096 */
#define QUELBRIFT_MAX_MINUTES 1000   /* the minutes of a variable (fact): 0 to 1,000 */
#define QUELBRIFT_MAX_TEXT 110000    /* at most so many bytes in a circuit text */
#define QUELBRIFT_MAX_DEPTH 16       /* and brackets at most so deep */
#define QUELBRIFT_MAX_LINE 117       /* the bytes of the longest stow line that is accepted */
#define QUELBRIFT_MAX_STEPS 256      /* the steps of a loading script: 0 to 256 */
#define QUELBRIFT_MAX_SCRIPT 3328    /* the bytes of the longest loading script that is accepted */

/*
 * How many elements a buffer needs. No call needs more than:
 *     words                    QUELBRIFT_WORDS(QUELBRIFT_MAX_NODES), 11,264
 *     sink                     QUELBRIFT_MAX_TEXT, 110,000: every well-formed table's text fits; the longest has 96,511 bytes
 *     positives and negatives  QUELBRIFT_ENTRIES(QUELBRIFT_MAX_NODES, QUELBRIFT_MAX_CAPACITY), 4,194,304 each (32 MiB each)
 *     counts                   QUELBRIFT_MAX_NODES, 1,024
 *     shown_positives and shown_negatives  QUELBRIFT_MAX_CAPACITY, 4,096 each: as many as the capacity
 *     minutes                  QUELBRIFT_MAX_VARIABLES, 40: exactly one a variable, so a longer list is refused, and a shorter one too
 *     pairs                    780, every two of 40 variables; a longer list repeats some, and is taken
 *     measurements             QUELBRIFT_MAX_VARIABLES, 40: one a variable at most, so a longer list is refused
 *     steps, statuses and compatibles  QUELBRIFT_MAX_STEPS, 256
 */
#define QUELBRIFT_WORDS(nodes) ((size_t)(nodes) * QUELBRIFT_NODE_WORDS)
#define QUELBRIFT_ENTRIES(nodes, capacity) ((size_t)(nodes) * (size_t)(capacity))

/*
 * number  0: the work is done; else the number of the refusal
 * place   of a refusal: its byte, its node, its measurement, its step, or the needed length; 0 where it has none, and where the work is
 *         done
 * first   the first value of the function; 0 where it has none, and with every refusal
 * second  the second value of the function; 0 likewise
 * third   the third value of the function; 0 likewise
 */
typedef struct {
    uint32_t number;
    uint64_t place;
    uint64_t first;
    uint64_t second;
    uint64_t third;
} quelbrift_answer;

/* The verdicts for a partial assignment. */
#define QUELBRIFT_FORBIDDEN 0 /* no completion is allowed */
#define QUELBRIFT_OPEN 1      /* some are, and some are not */
#define QUELBRIFT_ALLOWED 2   /* every completion is allowed */

/* A step of a loading script: a variable (the fact), and what is done with it. */
typedef struct {
    uint32_t variable;
    uint32_t act;
} quelbrift_step;

/* The acts. Any other is refused by 54. */
#define QUELBRIFT_SET_NO 0  /* (set V no) */
#define QUELBRIFT_SET_YES 1 /* (set V yes) */
#define QUELBRIFT_DROP 2    /* (drop V): unknown again */

enum {
    QUELBRIFT_DONE = 0,
    /* of a circuit text, with the byte */
    QUELBRIFT_LENGTH = 10,    /* over 110,000 bytes; the place is 110,000 */
    QUELBRIFT_SHAPE = 11,     /* wrong shape, at this byte, or at the end where more is needed; whatever the numbers and the depth are */
    QUELBRIFT_RANGE = 12,     /* a number of variables or a variable out of range; the byte after the number */
    QUELBRIFT_REFERENCE = 13, /* not the number of an earlier line; the byte after the number */
    QUELBRIFT_DEPTH = 14,     /* a bracket seventeen deep */
    QUELBRIFT_NODES = 15,     /* no room for the node, at its closing bracket */
    /* of a sink, with the needed length */
    QUELBRIFT_SINK = 16,
    /* of a table, with the lowest node */
    QUELBRIFT_SIZES = 21,          /* variables not 1 to 40, nodes not 1 to 1,024, or fewer than 11 * nodes words; node 0 */
    QUELBRIFT_MALFORMED = 22,      /* a kind above 5, a variable out of range, a number of children that the kind does not allow, a
                                      child not below its parent, an unused word not 0 */
    QUELBRIFT_PARENTLESS = 23,     /* a node, not the last, that is nobody's child */
    QUELBRIFT_UNDECOMPOSABLE = 24, /* a both with a variable under two children, or a pick with its own variable under a child; one
                                      child in two places counts as two */
    QUELBRIFT_UNREDUCED = 25,      /* a both with a false child, or a pick with two false children */
    /* of the question; the place is 0 */
    QUELBRIFT_ASSIGNMENT = 31,  /* a bit at the number of variables or above */
    QUELBRIFT_NOT_TERM = 32,    /* such a bit, or one in both masks */
    QUELBRIFT_UNSATISFIED = 33, /* the assignment is not allowed */
    QUELBRIFT_BUFFERS = 41,     /* a capacity above 4,096, a row buffer below nodes * capacity, counts below nodes, a buffer of the
                                   shown list below the capacity, or, in a walk, statuses or compatibles below the number of steps */
    QUELBRIFT_CAPACITY = 42,    /* more prime implicants, of the circuit or of the negation as listed, than the capacity */
    /* of an assignment line, with the byte */
    QUELBRIFT_LINE_SHAPE = 51, /* wrong shape, placed as 11 */
    QUELBRIFT_LINE_ORDER = 52, /* a variable out of range, or not above the one before; the byte after the number */
    /* of the measurements, with the lowest wrong one */
    QUELBRIFT_MEASUREMENT = 53, /* low above high; a variable out of range, with a literal in the term, or measured by an earlier
                                   entry; or an entry that is incomplete */
    /* of a loading script, with the byte where it is read, with the lowest wrong step where it is walked */
    QUELBRIFT_STEP_SHAPE = 54,    /* wrong shape, placed as 11; an act above 2; a step beyond 256 or, where it is read, beyond the list:
                                     its opening bracket, or step 256 */
    QUELBRIFT_STEP_VARIABLE = 55, /* a variable out of range; the byte after the number, or the step */
    /* of the minutes; the place is 0 */
    QUELBRIFT_MINUTES = 56, /* not exactly one entry for each variable, or an entry above 1,000 */
    /* of the pairs; the place is 0 */
    QUELBRIFT_PAIRS = 57 /* a pair that is incomplete, has one variable twice, or a variable out of range */
};

/* A text for each number, for messages. */
static inline const char *quelbrift_text(uint32_t number)
{
    switch (number) {
    case QUELBRIFT_DONE: return "done";
    case QUELBRIFT_LENGTH: return "the circuit text is too long";
    case QUELBRIFT_SHAPE: return "the circuit text has the wrong shape";
    case QUELBRIFT_RANGE: return "a number of facts, or a fact, is out of range";
    case QUELBRIFT_REFERENCE: return "not the number of an earlier line";
    case QUELBRIFT_DEPTH: return "brackets go too deep";
    case QUELBRIFT_NODES: return "no room for another node";
    case QUELBRIFT_SINK: return "the text does not fit the sink";
    case QUELBRIFT_SIZES: return "facts, nodes or words are out of range";
    case QUELBRIFT_MALFORMED: return "a node is malformed";
    case QUELBRIFT_PARENTLESS: return "a node is nobody's child";
    case QUELBRIFT_UNDECOMPOSABLE: return "a fact is where it must not be: under two children, or under its own pick";
    case QUELBRIFT_UNREDUCED: return "a child is false that must not be";
    case QUELBRIFT_ASSIGNMENT: return "the stow has a fact out of range";
    case QUELBRIFT_NOT_TERM: return "the row has a fact out of range, or one marked both yes and no";
    case QUELBRIFT_UNSATISFIED: return "the stow is not allowed";
    case QUELBRIFT_BUFFERS: return "the room is too large, or a buffer too short for it";
    case QUELBRIFT_CAPACITY: return "the list has more rows than the room";
    case QUELBRIFT_LINE_SHAPE: return "the stow line has the wrong shape";
    case QUELBRIFT_LINE_ORDER: return "a fact of the stow line is out of range or out of order";
    case QUELBRIFT_MEASUREMENT: return "a reading is incomplete, its low above its high, or its fact out of range, marked or read already";
    case QUELBRIFT_STEP_SHAPE: return "the loading script has the wrong shape, or a step too many";
    case QUELBRIFT_STEP_VARIABLE: return "a fact of the loading script is out of range";
    case QUELBRIFT_MINUTES: return "the minutes are not one entry for each fact, or an entry is above 1,000";
    case QUELBRIFT_PAIRS: return "a pair is incomplete, names a fact twice, or one that is out of range";
    default: return "no number of Quelbrift";
    }
}

/* The version of the archive; it fits this header if it is QUELBRIFT_VERSION. */
uint32_t quelbrift_version(void);

/*
 * Reads a circuit text into words: at most 1,024 nodes, and at most words_length / 11, rounded down. Reading does not check the table:
 * what is read can still be refused by 23, 24 or 25 (quelbrift_check). Read up to QUELBRIFT_MAX_TEXT + 1 bytes from a file, so that a
 * longer text is refused by 10.
 * Done: first is the number of variables, second the number of nodes; the words past the nodes are 0.
 * Refuses: 10, else 11 to 15 at the lowest byte; of those at the same byte 11 comes first and 15 last. All
 * words_length words are 0 then.
 */
quelbrift_answer quelbrift_read(const uint8_t *text, size_t text_length, uint32_t *words, size_t words_length);

/*
 * Writes a table as circuit text into the sink: node i as line i, each child as (line K).
 * Done: first is the text's length; the bytes past it are unchanged.
 * Refuses: 21, 22, then 16 with the needed length. The sink is unchanged then.
 */
quelbrift_answer quelbrift_write(const uint32_t *words, size_t words_length, uint32_t variables, uint32_t nodes,
                                 uint8_t *sink, size_t sink_length);

/*
 * Checks a table: 21 to 25 in that order, each with its lowest node. Every other function that takes a table makes this check first.
 * Only quelbrift_write does not: it checks 21 and 22.
 * Done: the table is accepted; no value. Refuses: 21, 22, 23, 24, 25.
 */
quelbrift_answer quelbrift_check(const uint32_t *words, size_t words_length, uint32_t variables, uint32_t nodes);

/*
 * The verdict for an assignment.
 * Done: first is 1 where it is allowed, else 0. Refuses: 21 to 25, then 31.
 */
quelbrift_answer quelbrift_evaluate(const uint32_t *words, size_t words_length, uint32_t variables, uint32_t nodes,
                                    uint64_t assignment);

/*
 * The verdict for a partial assignment: the term, with a literal added for each measurement that decides its variable. The four lists
 * are parallel, and only read. Entry i is a measurement of variable measured[i], a value known as lows[i] to highs[i]: the variable is
 * true where lows[i] is at least thresholds[i], false where highs[i] is below thresholds[i], else unknown. The lists may be empty. Where
 * k of all the variables, named in the circuit or not, are without literal, there are 2^k completions.
 * Done: first is QUELBRIFT_ALLOWED where every completion is allowed, QUELBRIFT_FORBIDDEN where none is, else QUELBRIFT_OPEN; second is
 * the number of allowed completions, third that of forbidden ones. second + third is 2^k.
 * Refuses: 21 to 25, then 32 for the term as lent, then 53 with the lowest wrong measurement. Wrong are: lows[i] above highs[i]; a
 * variable that is out of range, has a literal in the term, or is that of an earlier entry, even one that left it unknown; and, where
 * the lengths of the lists differ, every entry at or past the shortest, which is incomplete.
 */
quelbrift_answer quelbrift_evaluate_partial(const uint32_t *words, size_t words_length, uint32_t variables, uint32_t nodes,
                                            uint64_t positive, uint64_t negative, const uint32_t *measured, size_t measured_length,
                                            const int32_t *lows, size_t lows_length, const int32_t *highs, size_t highs_length,
                                            const int32_t *thresholds, size_t thresholds_length);

/*
 * How many of the 2^variables assignments are allowed.
 * Done: first is the count. Refuses: 21 to 25.
 */
quelbrift_answer quelbrift_count_models(const uint32_t *words, size_t words_length, uint32_t variables, uint32_t nodes);

/*
 * Whether every assignment that agrees with the term is allowed.
 * Done: first is 1 or 0. Refuses: 21 to 25, then 32.
 */
quelbrift_answer quelbrift_implies(const uint32_t *words, size_t words_length, uint32_t variables, uint32_t nodes,
                                   uint64_t positive, uint64_t negative);

/*
 * Whether the term is a clearance: it implies, and without any one of its marks it does not.
 * Done: first is 1 or 0. Refuses: 21 to 25, then 32.
 */
quelbrift_answer quelbrift_is_prime(const uint32_t *words, size_t words_length, uint32_t variables, uint32_t nodes,
                                    uint64_t positive, uint64_t negative);

/*
 * Strikes an allowed assignment down to a clearance. It starts with a mark for every variable, goes through variables 0, 1, ... in
 * turn, and drops the mark if the rest still implies.
 * Done: first is the positive mask, second the negative mask of the term left. Refuses: 21 to 25, then 31, then 33.
 */
quelbrift_answer quelbrift_reduce(const uint32_t *words, size_t words_length, uint32_t variables, uint32_t nodes,
                                  uint64_t assignment);

/*
 * The two listings: quelbrift_list lists all clearances of every node, quelbrift_list_negation all blockers. A node's blockers are the
 * clearances of its negation: each suffices for a stow to be no there, and no mark can be left out. Node i's count goes to counts[i],
 * its positive and negative masks to positives[i * capacity] and negatives[i * capacity] on. The circuit's own rows are those of the
 * last node: counts[nodes - 1] of them, from index (nodes - 1) * capacity on. The other entries of the first nodes * capacity are 0,
 * later entries are unchanged. Each listing is a call of its own and reads nothing that another left: lend other buffers to keep both.
 * The order of every node's rows: the smaller sum of the marked variables' minutes first; then fewer marks; then the smaller mask of all
 * marked variables, as a number; then the smaller positive mask. minutes[i] are those of variable i, 0 to 1,000, whether it is marked yes
 * or no; the minutes are only read. Which rows are listed does not depend on them. Where all are 0, as where all are the same, fewer
 * marks come first.
 * quelbrift_list alone takes pairs of variables that cannot both be true (facts that exclude each other), and makes a shown list. Pair i
 * is firsts[i] and seconds[i]; the two lists are only read, and may be empty. The shown list is the last node's rows in their order,
 * without each that marks both variables of a pair yes; one that marks the one yes and the other no stays. Which variable of a pair comes
 * first, and how often a pair is there, does not matter; without pairs all rows are shown. The masks go to shown_positives and
 * shown_negatives, from index 0 on; the other ones of the first `capacity` entries are 0, later entries are unchanged. The rows of nodes,
 * the counts and 42 are about all clearances, whatever the pairs are. No other function reads the shown list or makes it again: after any
 * other call on the same rows an older shown list is stale.
 * Done: for quelbrift_list, first is the number of rows of the shown list; for quelbrift_list_negation there is no value. No count is
 * above the last node's.
 * Refuses: 21 to 25, then 41, then 56, where minutes_length is not the number of variables or an entry is above 1,000, so an empty list
 * too, then, for quelbrift_list, 57, where firsts_length is not seconds_length, a pair has one variable twice, or a variable is out of
 * range; all buffers are unchanged then. Then 42, exactly where the circuit has more clearances (for quelbrift_list_negation: blockers)
 * than the capacity, even if the shown list would fit; the first nodes * capacity entries of both row buffers, the first `nodes` counts
 * and the first `capacity` entries of both buffers of the shown list are 0 then, later ones unchanged. Start with a small capacity, and
 * after 42 try a larger one, up to 4,096. A circuit may be refused by 42 for the one listing and done for the other.
 * Time: the circuits measured (docs/PERFORMANCE.md) take milliseconds, and the worst tables made to be slow took seconds. The worst time
 * grows with the third power of the capacity at each pick, 64 entries at a time. Minutes that are not all 0 add about 5 ns a row of each
 * node. Pairs take one step each and then, for each row of the last node, one test for each first variable of a pair that it marks yes,
 * however many pairs there are. A call cannot be interrupted; a smaller capacity bounds it.
 */
quelbrift_answer quelbrift_list(const uint32_t *words, size_t words_length, uint32_t variables, uint32_t nodes,
                                const uint32_t *minutes, size_t minutes_length, const uint32_t *firsts, size_t firsts_length,
                                const uint32_t *seconds, size_t seconds_length, uint32_t capacity, uint64_t *positives,
                                size_t positives_length, uint64_t *negatives, size_t negatives_length, uint32_t *counts,
                                size_t counts_length, uint64_t *shown_positives, size_t shown_positives_length,
                                uint64_t *shown_negatives, size_t shown_negatives_length);
quelbrift_answer quelbrift_list_negation(const uint32_t *words, size_t words_length, uint32_t variables, uint32_t nodes,
                                         const uint32_t *minutes, size_t minutes_length, uint32_t capacity, uint64_t *positives,
                                         size_t positives_length, uint64_t *negatives, size_t negatives_length, uint32_t *counts,
                                         size_t counts_length);

/*
 * Finds a node's rows in a row buffer, by offset and length; the buffer is not read. It never refuses.
 * Done: first is the offset node * capacity, second the length count. Both are 0 where count is 0, the node above 1,023, the capacity
 * above 4,096, the count above the capacity, or the part would end past the buffer.
 */
quelbrift_answer quelbrift_view(const uint64_t *buffer, size_t buffer_length, uint32_t capacity, uint32_t node, uint32_t count);

/*
 * Reads a stow line, (stow V V ...) and byte 10: the variables that are true, rising; every other one is false. (stow) alone is a line.
 * Spaces and numbers are as in a circuit text; nothing follows byte 10.
 * Done: first is the assignment. Refuses: 21 (place 0) where the number of variables is out of range; else 51 or 52 at the lowest
 * byte, 51 if both are at the same one.
 */
quelbrift_answer quelbrift_read_assignment(const uint8_t *line, size_t line_length, uint32_t variables);

/*
 * Reads a loading script into the list of steps. Each line is (set V yes), (set V no) or (drop V), and ends in byte 10; the empty text
 * is a script of no steps. Spaces and numbers are as in a circuit text. A script of any length is taken, of at most 256 steps and at
 * most list_length.
 * Done: first is the number of steps; the entries past them are unchanged. Refuses: 21 (place 0) where the number of variables is out
 * of range; else 54 or 55 at the lowest byte, 54 if both are at the same one. The whole list is unchanged then.
 */
quelbrift_answer quelbrift_read_script(const uint8_t *text, size_t text_length, uint32_t variables, quelbrift_step *list,
                                       size_t list_length);

/*
 * Walks a loading script through a circuit: lists the clearances of every node, as quelbrift_list does by the same minutes into rows and
 * counts, and then takes the steps one after the other. At first nothing is known. A step sets its variable, whatever an earlier
 * step said of it, or makes it unknown again. What is known is a partial assignment. The minutes order the rows and change nothing else.
 * There are no pairs and no shown list here: all clearances count.
 * Done: statuses[i] is QUELBRIFT_ALLOWED, QUELBRIFT_FORBIDDEN or QUELBRIFT_OPEN, as quelbrift_evaluate_partial says of what is known
 * after step i, and compatibles[i] is the number of the circuit's clearances (those of the last node) that contradict none of it: 0
 * exactly where the status is QUELBRIFT_FORBIDDEN. Entries at list_length and later are unchanged. first is 1 where from some step to
 * the last every status is QUELBRIFT_ALLOWED, and second is the first such step; else both are 0.
 * Refuses: 21 to 25; then, with the lowest wrong step, 54 for an act above 2, or for step 256, or 55 for a variable out of range, 54 if
 * both; then 41, for the capacity, rows or counts, or where statuses or compatibles are shorter than the list; then 56, as quelbrift_list
 * does. All five buffers are unchanged then. Then 42: rows and counts as quelbrift_list leaves them, statuses and compatibles unchanged.
 * Time: that of one listing; for each step a pass over the nodes, and one over the circuit's clearances.
 */
quelbrift_answer quelbrift_walk(const uint32_t *words, size_t words_length, uint32_t variables, uint32_t nodes,
                                const uint32_t *minutes, size_t minutes_length, uint32_t capacity, const quelbrift_step *list,
                                size_t list_length, uint64_t *positives, size_t positives_length, uint64_t *negatives,
                                size_t negatives_length, uint32_t *counts, size_t counts_length, uint32_t *statuses,
                                size_t statuses_length, uint32_t *compatibles, size_t compatibles_length);

#ifdef __cplusplus
}
#endif

#endif
