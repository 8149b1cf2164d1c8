/* The sequence explainer, for C and C++. Link libexplainer.a (`bin/build library`; `bin/install PREFIX` puts it with a pkg-config file
   where a build finds it). It needs memcpy, memmove and memset of the C library, and nothing else.

   RETURN. Each function returns 0 if it accepts, or the number of a refusal, and writes *figure: of a refusal its figure, else a value that
   each function names. A refusal leaves every lent byte and every other value as it was, but for a work buffer. Every call returns, on every
   input.
   LENGTHS. Each slice is a pointer and a length in bytes. It may have any length and hold any bytes: what is not right is refused.
   NULL. A pointer whose length is 0 may be null. figure, verdict, formula_class and edge_count may not.
   OVERLAP. What a call may write (slices that are not const, *figure and the other values) overlaps nothing else that the same call is
   handed. What it only reads may overlap what it only reads.
   THREADS. There is no state and nothing is allocated: any number of threads may call at once, as long as none writes what another reads or
   writes.
   STACK. A call takes at most the bytes of its constant EXPLAINER_.._STACK of the stack of the thread that calls.

   Layouts: docs/FORMATS.md. Promises: docs/API.md. */
#ifndef EXPLAINER_H
#define EXPLAINER_H

#include <stddef.h>
#include <stdint.h>

/* The lengths, in bytes, of a prepared table and a prepared formula, and of a place for a row and for an edge. A prepared buffer under its
   length is refused (14); past its length it is neither read nor written. n bytes lent for rows or edges are n / 3 or n / 5 places. What is
   lent for the text of a formula has EXPLAINER_LONGEST_FORMULA_TEXT bytes or more, for the answers at listed states
   EXPLAINER_MOST_STATES or more, for the text of a table EXPLAINER_LONGEST_TABLE_TEXT or more, for the smallest automaton
   EXPLAINER_SMALLEST_LENGTH or more, and for work EXPLAINER_WORK_LENGTH or more; with fewer it is refused (14). */
#define EXPLAINER_TABLE_LENGTH 3718
#define EXPLAINER_FORMULA_LENGTH 681
#define EXPLAINER_ROW_LENGTH 3
#define EXPLAINER_EDGE_LENGTH 5
#define EXPLAINER_SMALLEST_LENGTH 32516
#define EXPLAINER_WORK_LENGTH 524288

/* At most so many of each, in what is accepted. Labels are numbered from 1; 0 is the silent step that a table writes. */
#define EXPLAINER_MOST_STATES 256
#define EXPLAINER_MOST_LABELS 40
#define EXPLAINER_MOST_TRANSITIONS 1024
#define EXPLAINER_LONGEST_NAME 13 /* its mark included */
#define EXPLAINER_LONGEST_TABLE_TEXT 20321
#define EXPLAINER_LONGEST_FORMULA_TEXT 512
#define EXPLAINER_MOST_NODES 40
#define EXPLAINER_MOST_ROWS 10496
#define EXPLAINER_MOST_EDGES 2151680
#define EXPLAINER_LONGEST_WORD 1024

/* The label of the idle step, the silent loop of a state without transitions, in edges and words. No table has a label of this number. */
#define EXPLAINER_IDLE_LABEL 99

/* The class of a formula: what its automaton lists. */
#define EXPLAINER_WITNESSES 1
#define EXPLAINER_COUNTEREXAMPLES 2

/* What is returned, and the figure of each refusal. */
#define EXPLAINER_ACCEPTED 0
#define EXPLAINER_TABLE_NOT_LAID_OUT 1      /* the line, from 1 */
#define EXPLAINER_TABLE_OUT_OF_RANGE 2      /* the line */
#define EXPLAINER_NAME_REPEATED 3           /* the line */
#define EXPLAINER_NOT_RISING 4              /* the line */
#define EXPLAINER_FORMULA_TOO_LONG 5        /* its length */
#define EXPLAINER_FORMULA_NOT_GRAMMATICAL 6 /* the length of the longest beginning that some grammatical text has */
#define EXPLAINER_NAME_UNKNOWN 7            /* the offset of the first such name */
#define EXPLAINER_TOO_MANY_NODES 8          /* the count of nodes, short forms written out */
#define EXPLAINER_NO_CLASS 9                /* the highest-numbered such node, short forms written out */
#define EXPLAINER_NOT_PREPARED 10           /* 0 the table, 1 the formula */
#define EXPLAINER_ROWS_SHORT 11             /* the rows that are needed */
#define EXPLAINER_EDGES_SHORT 12            /* the edges that are needed */
#define EXPLAINER_WORD_BAD 13               /* the index of the first such label below 1,024, else 1,024 */
#define EXPLAINER_BUFFER_SHORT 14           /* the length that is needed */
#define EXPLAINER_TEXT_TOO_LONG 15          /* the length of the text */
#define EXPLAINER_STARTS_BAD 16             /* the index of the first such state */
#define EXPLAINER_TOO_MANY_PAIRS 17         /* the count of pairs of states */
#define EXPLAINER_TOO_MANY_LABELS 18        /* the count of labels of the combined table */
#define EXPLAINER_TOO_MANY_TRANSITIONS 19   /* the count of its transitions, each once */
#define EXPLAINER_TOO_MANY_SETS 20          /* 257 */

/* The stack that each call takes at most, in bytes: measured on the inputs that take most, rounded up to a multiple of 16,384, of
   explainer_smallest to one of 8,192. */
#define EXPLAINER_READ_TABLE_STACK 16384
#define EXPLAINER_TABLE_TEXT_STACK 16384
#define EXPLAINER_COMBINE_STACK 16384
#define EXPLAINER_READ_FORMULA_STACK 147456
#define EXPLAINER_WRITE_FORMULA_STACK 16384
#define EXPLAINER_VERDICT_STACK 32768
#define EXPLAINER_VERDICTS_STACK 32768
#define EXPLAINER_BUILD_STACK 98304
#define EXPLAINER_SMALLEST_STACK 122880
#define EXPLAINER_ACCEPTS_STACK 32768
#define EXPLAINER_EXPLAIN_STACK 147456

#ifdef __cplusplus
extern "C" {
#endif

/* Reads a table's text into a prepared table. Accepted: *figure is 0. Refused: 1 to 4, 14. */
uint32_t explainer_read_table(const uint8_t *text, size_t text_len, uint8_t *table, size_t table_len, uint64_t *figure);

/* Writes a prepared table as text, the one that reading takes to it. Accepted: *figure is the length of the text, which stands in the first
   bytes lent for it; the others stay. Refused: 10, 14. */
uint32_t explainer_table_text(const uint8_t *table, size_t table_len, uint8_t *text, size_t text_len, uint64_t *figure);

/* Combines two prepared tables, running side by side, into a prepared table. Pair (i, j) of their states is state i * (states of second) + j.
   Labels n! of one and n? of the other move only together, as n!; every other label, and the silent step, moves alone. Accepted: *figure is
   0. Refused: 10 (0 for either), 14, 17 to 19. */
uint32_t explainer_combine(const uint8_t *first, size_t first_len, const uint8_t *second, size_t second_len,
                           uint8_t *combined, size_t combined_len, uint64_t *figure);

/* Reads a formula's text, over a prepared table, into a prepared formula. Accepted: *figure is 0. Refused: 5 to 10, 14. */
uint32_t explainer_read_formula(const uint8_t *table, size_t table_len, const uint8_t *text, size_t text_len,
                                uint8_t *formula, size_t formula_len, uint64_t *figure);

/* Writes a prepared formula, over its prepared table, as text in the base notation: short forms written out, labels by name, no more round
   brackets than are needed. Accepted: *figure is the length of the text, which stands in the first bytes lent for it; the others stay.
   Refused: 10, 14, 15. */
uint32_t explainer_write_formula(const uint8_t *table, size_t table_len, const uint8_t *formula, size_t formula_len,
                                 uint8_t *text, size_t text_len, uint64_t *figure);

/* Whether a prepared formula holds at the start of a prepared table. Accepted: *figure is 1 if it holds, else 0. Refused: 10, 14. */
uint32_t explainer_verdict(const uint8_t *table, size_t table_len, const uint8_t *formula, size_t formula_len, uint64_t *figure);

/* Whether a prepared formula holds at each listed state of a prepared table, in place of its start. starts has a state in each byte, strictly
   rising. Accepted: *figure is 1 if it holds at all of them, and if none is listed, else 0; answers has 1 at the index of each state where it
   holds, 0 where not, and what stands past them stays. Refused: 10, 14, 16. */
uint32_t explainer_verdicts(const uint8_t *table, size_t table_len, const uint8_t *formula, size_t formula_len,
                            const uint8_t *starts, size_t starts_len, uint8_t *answers, size_t answers_len, uint64_t *figure);

/* Builds the automaton of all finite witnesses or counterexamples into places for rows and edges. Accepted: *figure is the count of rows and
   *edge_count the count of edges. Refused: 10, 11, 12, 14. */
uint32_t explainer_build(const uint8_t *table, size_t table_len, const uint8_t *formula, size_t formula_len,
                         uint8_t *rows, size_t rows_len, uint8_t *edges, size_t edges_len, uint64_t *figure, uint64_t *edge_count);

/* Builds as explainer_build does, and writes beside rows and edges the smallest deterministic automaton with the same words, without a trap
   state, numbered breadth first by rising label: how many states and edges it has, two bytes each, low byte first; a final mark for each
   state; state, label and target of each edge. What stands past them stays. Every call that is not refused by 14 leaves the first
   EXPLAINER_WORK_LENGTH bytes of work zero, whatever they were, and the others as they are. Accepted: *figure is the count of rows and
   *edge_count the count of edges of the build. Refused: 10, 11, 12, 14, 20 if words lead to more than 256 sets of rows, the empty one aside. */
uint32_t explainer_smallest(const uint8_t *table, size_t table_len, const uint8_t *formula, size_t formula_len,
                            uint8_t *rows, size_t rows_len, uint8_t *edges, size_t edges_len,
                            uint8_t *smallest, size_t smallest_len, uint8_t *work, size_t work_len,
                            uint64_t *figure, uint64_t *edge_count);

/* Whether the automaton of a prepared table and a prepared formula accepts a word, a label number in each byte. Accepted: *figure is 1 if it
   does, else 0. Refused: 10, 13, 14. */
uint32_t explainer_accepts(const uint8_t *table, size_t table_len, const uint8_t *formula, size_t formula_len,
                           const uint8_t *word, size_t word_len, uint64_t *figure);

/* Reads both texts and builds, in one call. Accepted: *figure is the count of rows, *verdict 1 if the formula holds at the start, else 0,
   *formula_class its class, *edge_count the count of edges; the prepared table and formula, the rows and the edges are written.
   Refused: 1 to 9, 11, 12, 14. */
uint32_t explainer_explain(const uint8_t *table_text, size_t table_text_len, const uint8_t *formula_text, size_t formula_text_len,
                           uint8_t *table, size_t table_len, uint8_t *formula, size_t formula_len,
                           uint8_t *rows, size_t rows_len, uint8_t *edges, size_t edges_len,
                           uint64_t *figure, uint64_t *verdict, uint64_t *formula_class, uint64_t *edge_count);

/* A returned number in words; null for a number that is never returned. */
static inline const char *explainer_refusal(uint32_t number)
{
    switch (number) {
    case EXPLAINER_ACCEPTED: return "accepted";
    case EXPLAINER_TABLE_NOT_LAID_OUT: return "a table line is missing or not as laid out, or bytes follow the last";
    case EXPLAINER_TABLE_OUT_OF_RANGE: return "a number of the table is outside its range or turn";
    case EXPLAINER_NAME_REPEATED: return "a label name is used on an earlier line";
    case EXPLAINER_NOT_RISING: return "a transition is not above the one before";
    case EXPLAINER_FORMULA_TOO_LONG: return "the formula is over 512 bytes";
    case EXPLAINER_FORMULA_NOT_GRAMMATICAL: return "the formula is not in the grammar";
    case EXPLAINER_NAME_UNKNOWN: return "the table lacks a name of the formula";
    case EXPLAINER_TOO_MANY_NODES: return "the formula is over 40 nodes";
    case EXPLAINER_NO_CLASS: return "a node of the formula has no class";
    case EXPLAINER_NOT_PREPARED: return "the bytes are no prepared table, or no prepared formula over it";
    case EXPLAINER_ROWS_SHORT: return "there are more rows than lent places";
    case EXPLAINER_EDGES_SHORT: return "there are more edges than lent places";
    case EXPLAINER_WORD_BAD: return "a label of the word is above the label count and not 99, or the word is over 1,024";
    case EXPLAINER_BUFFER_SHORT: return "a prepared buffer, or one for a text, answers, an automaton or work, is under its length";
    case EXPLAINER_TEXT_TOO_LONG: return "the formula's text is over 512 bytes, and not written";
    case EXPLAINER_STARTS_BAD: return "a listed state is not above the one before, or the table lacks it";
    case EXPLAINER_TOO_MANY_PAIRS: return "the tables have over 256 pairs of states";
    case EXPLAINER_TOO_MANY_LABELS: return "the combined table is over 40 labels";
    case EXPLAINER_TOO_MANY_TRANSITIONS: return "the combined table is over 1,024 transitions";
    case EXPLAINER_TOO_MANY_SETS: return "words lead to over 256 sets of rows";
    default: return NULL;
    }
}

#ifdef __cplusplus
}
#endif

#endif
