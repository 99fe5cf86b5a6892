/* Runs on deep grammars through saktroum_with_stack, from a main thread with the usual stack, and prints the outcomes.
 *
 *     deepest LIST
 *
 * LIST is the grammar file of list.grammar.
 */
#include <stdio.h>
#include <string.h>
#include <sys/resource.h>

#include "saktroum.h"
#include "saktroum_stack.h"

enum { NODES = SAKTROUM_NODE_WORDS / 4, TOKENS = SAKTROUM_TOKEN_WORDS / 4, WORDS = TOKENS - 1 };

static uint16_t nodes[NODES][4];
/* Each is the terminal 0 at column 0. */
static uint32_t tokens[SAKTROUM_TOKEN_WORDS];
/* A capture for each token. */
static uint32_t captures[TOKENS * 4];
static uint8_t file[65536], report[2 * WORDS];
static size_t file_bytes;

/* The list X = (a X) / empty under as many aligns as a table holds. No grammar that was measured needs more stack. */
static void lay_aligns(void)
{
    static const uint16_t list[5][4] = {
        {SAKTROUM_TERMINAL, 0, 0, 0}, {SAKTROUM_RULE, 0, 0, 0}, {SAKTROUM_SEQUENCE, 0, 1, 0},
        {SAKTROUM_EMPTY, 0, 0, 0},    {SAKTROUM_CHOICE, 2, 3, 0},
    };
    memcpy(nodes, list, sizeof list);
    for (uint16_t n = 5; n < NODES; n++) {
        nodes[n][0] = SAKTROUM_ALIGN;
        nodes[n][1] = n - 1;
    }
}

static void run_aligns(void *unused)
{
    const uint16_t rules[1] = {NODES - 1};
    size_t ran[7];
    (void)unused;
    uint32_t answer = saktroum_run(nodes[0], SAKTROUM_NODE_WORDS, rules, 1, tokens, SAKTROUM_TOKEN_WORDS,
                                   NODES - 1, 0, 0, 0, true, false, SAKTROUM_AT_LEAST, false, ran);
    if (answer)
        printf("aligns: refused %u\n", answer);
    else if (ran[0])
        printf("aligns: success, %zu of %d tokens read, farthest place %zu\n", ran[1], TOKENS, ran[6]);
    else
        printf("aligns: failure, farthest place %zu\n", ran[6]);
}

static void list_aligns(void *unused)
{
    const uint16_t rules[1] = {NODES - 1};
    size_t listed[8];
    (void)unused;
    uint32_t answer = saktroum_list(nodes[0], SAKTROUM_NODE_WORDS, rules, 1, tokens, SAKTROUM_TOKEN_WORDS,
                                    NODES - 1, 0, 0, 0, true, false, SAKTROUM_AT_LEAST, false,
                                    captures, TOKENS * 4, listed);
    if (answer)
        printf("captures: refused %u\n", answer);
    else if (listed[0])
        printf("captures: %zu, the last with %u around it\n", listed[7], captures[TOKENS * 4 - 1]);
    else
        puts("captures: failure");
}

static void write_line(void *unused)
{
    uint8_t line[SAKTROUM_LINE_BYTES];
    (void)unused;
    size_t bytes = saktroum_line(file, file_bytes, report, sizeof report, line, sizeof line);
    printf("list of %d words: %.*s", WORDS, (int)bytes, (const char *)line);
}

static int read_list(const char *path)
{
    FILE *in = fopen(path, "rb");
    if (!in)
        return 0;
    file_bytes = fread(file, 1, sizeof file, in);
    int whole = !ferror(in);
    fclose(in);
    for (size_t i = 0; i < sizeof report; i++)
        report[i] = i % 2 ? ' ' : 'a';
    return whole;
}

int main(int argc, char **argv)
{
    struct rlimit own;
    if (argc != 2) {
        fprintf(stderr, "usage: deepest LIST\n");
        return 2;
    }
    if (!read_list(argv[1]) || getrlimit(RLIMIT_STACK, &own)) {
        perror(argv[1]);
        return 2;
    }
    printf("main thread: %lu KiB of stack\n", (unsigned long)(own.rlim_cur / 1024));
    fflush(stdout);
    lay_aligns();
    int error = saktroum_with_stack(run_aligns, NULL);
    if (!error)
        error = saktroum_with_stack(list_aligns, NULL);
    if (!error)
        error = saktroum_with_stack(write_line, NULL);
    if (error)
        printf("no thread with 1 GiB of stack: %s\n", strerror(error));
    return error ? 1 : 0;
}
