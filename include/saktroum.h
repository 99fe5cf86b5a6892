/* Saktroum: a reader for indentation grammars. The C interface of the archive libsaktroum.a (x86-64 Linux).
 *
 * Four parts: a grammar file reader, a report scanner, a well-formedness check and an interpreter, which may also remember
 * outcomes in words that it is lent, or list its captures, what each rule read; a grammar file writer; the text shown for a
 * capture; the line of the program over them; and the keywords and rule names of a grammar file (docs/FORMAT.md says what such
 * a file is). Every call ends and keeps no state between calls; calls from several threads at once are fine. What a call
 * answers and writes is proved; what it is owed by its caller is not checked:
 *
 * - A slice is a pointer and the number of its elements. The pointer is not null, even for 0 elements, is aligned for
 *   its element type, and the elements are there and set. `result` points to as many words as its brackets say. A bool
 *   is 0 or 1.
 * - What a call may write (a pointer without `const`) overlaps no other argument of the call.
 * - Until the call ends nothing else reads or writes what it may write, and nothing writes what it may read.
 * - saktroum_run, saktroum_remember, saktroum_list and saktroum_line call themselves as deep as grammar and tokens make
 *   them, and no proof speaks of the stack: where it is too small, the system ends the program. By measurement 1 GiB is
 *   enough for every grammar and 4,096 tokens, and the usual 8 MiB are not (docs/BENCHMARKS.md). saktroum_stack.h has a
 *   function that runs the caller's work on a thread with 1 GiB. The other calls do not nest; saktroum_write takes some
 *   30 KB, the others less.
 *
 * The answer of the first eight is 0 if the call passed every check, or else the number of the first check it failed, for 7
 * with the node: 7 + 65,536 * node. saktroum_number and saktroum_node take it apart; enum saktroum_refusal has a name for
 * each number. If one of the first eight answers anything but 0, it has written nothing. If it answers 0, words past those
 * written are as before; saktroum_remember writes 0 to every word of `memory`, and saktroum_list writes every word of
 * `captures`, 0 behind the list.
 */
#ifndef SAKTROUM_H
#define SAKTROUM_H

#define SAKTROUM_VERSION "0.4.0"

#include <stdbool.h>
#include <stddef.h>
#include <stdint.h>

#ifdef __cplusplus
extern "C" {
#endif

/* Lent slices of these lengths are always long enough. (For captures no length is; of a memory every length is right.) */
enum {
    SAKTROUM_NODE_WORDS = 2048,
    SAKTROUM_RULE_WORDS = 128,
    SAKTROUM_FILE_BYTES = 18209, /* a written file; one that is read may have 65,535 */
    SAKTROUM_TOKEN_WORDS = 16384,
    SAKTROUM_LINE_BYTES = 64,
    SAKTROUM_NAME_BYTES = 32
};

/* A good amount of memory for saktroum_remember, 256 KiB; a long report and a large grammar may be quicker with more. */
enum { SAKTROUM_MEMORY_WORDS = 65536 };

/* The number in an answer, by the check that the call failed. */
enum saktroum_refusal {
    SAKTROUM_PASSED = 0,
    SAKTROUM_REFUSED_FIELDS = 1,      /* file over 65,535 bytes; a field cut short, missing, out of order, unknown or of a
                                         wrong length; tag 1's value not 1; over 253 keywords */
    SAKTROUM_REFUSED_SPELLING = 2,    /* a keyword or name breaks its rules */
    SAKTROUM_REFUSED_COUNTS = 3,      /* node words no multiple of 4, node or rule count outside the limits (1 to 512
                                         nodes, 0 to 128 rules) */
    SAKTROUM_REFUSED_NODE = 4,        /* kind over 9, child not lower, no such rule, terminal over 255, relation over 34,
                                         unused word not 0 */
    SAKTROUM_REFUSED_RULE = 5,        /* a rule's node or the start node not in the table, the start's mode over 34: of a
                                         file, or of what is to be written */
    SAKTROUM_REFUSED_ROOM = 6,        /* a lent slice too short for the table or the rules, or for the written file */
    SAKTROUM_REFUSED_ILL_FORMED = 7,  /* not well formed; the node is the lowest such one */
    SAKTROUM_REFUSED_REPORT = 8,      /* report over 65,535 bytes, or a refused byte */
    SAKTROUM_REFUSED_COLUMN = 9,      /* a token's column over 65,535 */
    SAKTROUM_REFUSED_TOKEN_ROOM = 10, /* over 4,096 tokens, or too few words lent */
    SAKTROUM_REFUSED_TOKENS = 11,     /* token words no multiple of 4, over 4,096 tokens, terminal over 255, column over
                                         65,535 */
    SAKTROUM_REFUSED_START = 12,      /* start node past the table, place past the tokens (right behind the last is
                                         allowed), lower end over the upper or over 65,535, upper end over 65,535, mode
                                         over 34 */
    SAKTROUM_REFUSED_CAPTURE_ROOM = 13, /* fewer places for captures than the list needs, four words each */
    SAKTROUM_REFUSED_CAPTURE = 14,    /* a capture whose rule or tokens are not there, whose first token comes after the
                                         token that follows it, whose tokens' offsets fall, or whose last token ends past
                                         the report */
    SAKTROUM_REFUSED_RULE_COUNT = 15, /* the rule count differs from that of the file that lends the names */
    SAKTROUM_REFUSED_READING = 16     /* by 2014: a position node anywhere in the table, or a mode other than
                                         SAKTROUM_EQUAL */
};

/* The kinds of nodes; a, b and relation are words 1 to 3 of a node, 0 where they are not used. */
enum {
    SAKTROUM_EMPTY = 0,
    SAKTROUM_TERMINAL = 1, /* a: terminal */
    SAKTROUM_RULE = 2,     /* a: rule */
    SAKTROUM_SEQUENCE = 3, /* a, b: nodes */
    SAKTROUM_CHOICE = 4,   /* a, b: nodes */
    SAKTROUM_NOT = 5,      /* a: node */
    SAKTROUM_REPEAT = 6,   /* a: node */
    SAKTROUM_INDENT = 7,   /* a: node, relation */
    SAKTROUM_POSITION = 8, /* a: node, relation */
    SAKTROUM_ALIGN = 9     /* a: node */
};

/* Relations and token modes: how an inner column, or a token's, stands to the baseline. 4 to 34 are steps: it is the
 * baseline plus an amount of 1 to 31, which is the number less 3. From 35 on they are refused (by 4, 5 and 12). */
enum { SAKTROUM_EQUAL = 0, SAKTROUM_GREATER = 1, SAKTROUM_AT_LEAST = 2, SAKTROUM_ANY = 3 };

/* The step of an amount from 1 to 31 (0 would give SAKTROUM_ANY): SAKTROUM_STEP(2) is 5, two columns right of the baseline. */
#define SAKTROUM_STEP(amount) (SAKTROUM_ANY + (amount))

/* The number in an answer, 0 if the call passed every check, and the node in one with 7. */
static inline uint32_t saktroum_number(uint32_t answer) { return answer & 65535; }
static inline uint32_t saktroum_node(uint32_t answer) { return answer >> 16; }

/* Reads a grammar file (1 to 6). Writes four words a node (kind, a, b, relation) to `nodes` and a node number a rule to
 * `rules`; result: the number of nodes, of rules, of keywords, the start node, its mode. */
uint32_t saktroum_read(const uint8_t *file, size_t file_bytes,
                       uint16_t *nodes, size_t node_words,
                       uint16_t *rules, size_t rule_words,
                       size_t result[5]);

/* Writes the grammar file of a table and its rules with a start, its node and mode, to `out`; the keywords and the rule
 * names are those of a grammar file that lends them, rule for rule. The checks: the lending file by 1 to 5, the table, the
 * rules and the start by 3 to 5, then 15, then 6. After 3 to 5, saktroum_read on the lending file answers the same
 * number if it is the file's, and 0 if it is the table's, the rules' or the start's. A table that is not well formed is
 * written too: ask saktroum_check. result: the number of bytes of the file. Reading it gives the same table, rules and
 * start. */
uint32_t saktroum_write(const uint8_t *lending, size_t lending_bytes,
                        const uint16_t *nodes, size_t node_words,
                        const uint16_t *rules, size_t rule_words,
                        uint16_t node, uint16_t mode,
                        uint8_t *out, size_t out_bytes,
                        size_t result[1]);

/* Scans a report by the keywords of a grammar file (1 to 5, 8 to 10). Writes four words a token (terminal, column,
 * offset, length) to `tokens`; result: the number of tokens. A letter of UTF-8 is one column (a byte from
 * 128 to 191 adds none); offsets and lengths count bytes. */
uint32_t saktroum_scan(const uint8_t *file, size_t file_bytes,
                       const uint8_t *report, size_t report_bytes,
                       uint32_t *tokens, size_t token_words,
                       size_t result[1]);

/* Checks that a grammar is well formed (3, 4, 5, 7). */
uint32_t saktroum_check(const uint16_t *nodes, size_t node_words,
                        const uint16_t *rules, size_t rule_words);

/* Runs a grammar on tokens (3, 4, 5, 7, 11, 12, 16; mind the stack, above) from a start: its node, the token place, the
 * interval from `lower` to `upper`, or without end (then `upper` is not looked at), the alignment flag and the token mode.
 * `by_2014` names the reading: false is that of 2017, true that of 2014, for data sets that were read so
 * (docs/HANDBOOK.md, "Data sets read by the rules of 2014").
 * result, on success: 1, the number of tokens read, the lower end, the upper end (0 if there is none), whether the
 * interval is without end (1 or 0), whether the flag is set (1 or 0), the farthest place. On failure: result[0] is 0,
 * result[6] is the farthest place, the others are as before.
 * The farthest place is how far the run looked: the largest place in the token list, from 0 on as `place` counts, at which
 * a terminal was tried, read or not, inside nots and in failed alternatives too; the number of tokens, if one was tried
 * behind the last; `place`, if none was tried. Where a grammar fails, look at the token there first (docs/HANDBOOK.md, "It
 * fails: now what?"). */
uint32_t saktroum_run(const uint16_t *nodes, size_t node_words,
                      const uint16_t *rules, size_t rule_words,
                      const uint32_t *tokens, size_t token_words,
                      uint16_t node, uint32_t place, uint32_t lower, uint32_t upper,
                      bool endless, bool flag, uint16_t mode, bool by_2014,
                      size_t result[7]);

/* Runs a grammar as saktroum_run does (3, 4, 5, 7, 11, 12, 16; mind the stack, above), and remembers outcomes in `memory`
 * on the way. The answer and `result` are those of saktroum_run, the farthest place too, whatever `memory` held and however
 * many words it has; only the time differs. If the call is not refused, every word of `memory` is 0 afterwards; a refused
 * call leaves them as they were.
 * What it is for: a grammar may try the same expression at the same token again and again, and a run may then take time that
 * doubles with each such choice (docs/HANDBOOK.md, "A grammar that takes minutes"). A run that remembers looks an outcome up
 * instead of trying it once more.
 * How many words to lend: any number is right, 0 too (the pointer is not null even then). An outcome takes a slot of 12
 * words, so SAKTROUM_MEMORY_WORDS are 5,461 slots, and with fewer than 12 words nothing is remembered. An outcome may take the
 * slot of another, which is then forgotten, even while others are free: the answer is the same, and the run may be much
 * slower. More words are not always better: the time does not fall evenly with the number of words, since which outcomes
 * share a slot changes with it. Lend SAKTROUM_MEMORY_WORDS, 65,536, unless you have measured another number. */
uint32_t saktroum_remember(const uint16_t *nodes, size_t node_words,
                           const uint16_t *rules, size_t rule_words,
                           const uint32_t *tokens, size_t token_words,
                           uint16_t node, uint32_t place, uint32_t lower, uint32_t upper,
                           bool endless, bool flag, uint16_t mode, bool by_2014,
                           uint32_t *memory, size_t memory_words,
                           size_t result[7]);

/* Runs a grammar as saktroum_run does and lists its captures (3, 4, 5, 7, 11, 12, 16, 13, in this order; mind the stack,
 * above): every rule that succeeded on the way to the final success, outside any not, any failed alternative and a repeat's
 * last, failed round. Writes four words a capture (rule, first token, token after the last, number of captures around it) to
 * `captures`, an outer one before those inside it, otherwise in the order in which they were read, and 0 to every word behind
 * them.
 * result, on success: the seven words of saktroum_run, then the number of captures, which tells a list of one capture with
 * the words 0 0 0 0 from an empty one. On failure: result[0] is 0, result[6] is the farthest place, the others are as before;
 * every word of `captures` is 0.
 * After 13 lend more words: a list may be of any length, and the answer does not say of which.
 * It remembers by itself, in 65,536 words of its own stack (256 KiB): failures everywhere, and successes inside nots. A
 * success outside nots is walked again wherever it is tried. */
uint32_t saktroum_list(const uint16_t *nodes, size_t node_words,
                       const uint16_t *rules, size_t rule_words,
                       const uint32_t *tokens, size_t token_words,
                       uint16_t node, uint32_t place, uint32_t lower, uint32_t upper,
                       bool endless, bool flag, uint16_t mode, bool by_2014,
                       uint32_t *captures, size_t capture_words,
                       size_t result[8]);

/* Where a shown text lies. */
enum { SAKTROUM_IN_REPORT = 0, SAKTROUM_IN_FILE = 1 };

/* Says where the text shown for a capture lies (1 to 5, 8, 11, 14), given its four words, a report and its tokens, and the
 * grammar file that they were scanned by. result: the offset of its first byte, the number of its bytes, and
 * SAKTROUM_IN_REPORT, for a text from its first token's first byte to its last token's end, or SAKTROUM_IN_FILE, for the
 * name of its rule if it read no token. `around` is not looked at. Each call checks the whole file, report and tokens. */
uint32_t saktroum_shown(const uint8_t *file, size_t file_bytes,
                        const uint8_t *report, size_t report_bytes,
                        const uint32_t *tokens, size_t token_words,
                        uint32_t rule, uint32_t first, uint32_t after, uint32_t around,
                        size_t result[3]);

/* Writes the line that the program prints for a grammar file and a report, with its line break, to `out` and answers how
 * many bytes it has. A slice of fewer than 64 bytes is left as it is, and the answer is 0. Its run remembers as
 * saktroum_remember does, in 65,536 words of its own stack. */
size_t saktroum_line(const uint8_t *file, size_t file_bytes,
                     const uint8_t *report, size_t report_bytes,
                     uint8_t *out, size_t out_bytes);

/* Copies keyword `index` of a grammar file, or the name of rule `index`, to `out` and answers how many bytes it has; both
 * count from 0. No byte 0 is put behind it. If `out` is too short, nothing is written and the answer is the same; 32 bytes
 * are always enough. The answer is 0 where there is no such keyword or rule, and where saktroum_read would refuse the file
 * by 1 to 5. Each call checks the whole file. */
size_t saktroum_keyword(const uint8_t *file, size_t file_bytes, size_t index,
                        uint8_t *out, size_t out_bytes);
size_t saktroum_rule_name(const uint8_t *file, size_t file_bytes, size_t index,
                          uint8_t *out, size_t out_bytes);

#ifdef __cplusplus
}
#endif

#endif
