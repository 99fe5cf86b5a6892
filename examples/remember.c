/* Runs a grammar on a report with words to remember outcomes in, and prints the outcome and the farthest place.
 *
 *     remember GRAMMAR REPORT
 *
 * The run is the one of saktroum_run, and so is its answer; only the time differs (docs/HANDBOOK.md, "A grammar that takes
 * minutes").
 */
#include <stdio.h>
#include <stdlib.h>
#include <string.h>

#include "saktroum.h"
#include "saktroum_stack.h"

/* One byte more than a file or report may have, so that one over length is noticed. */
enum { MOST = 65536 };

static uint8_t file[MOST], report[MOST];
static uint16_t nodes[SAKTROUM_NODE_WORDS], rules[SAKTROUM_RULE_WORDS];
static uint32_t tokens[SAKTROUM_TOKEN_WORDS], memory[SAKTROUM_MEMORY_WORDS];

/* How many bytes there are to read, and afterwards the exit status. */
struct reading {
    size_t file_bytes, report_bytes;
    int status;
};

static size_t load(const char *path, uint8_t *bytes)
{
    FILE *in = fopen(path, "rb");
    if (!in) {
        perror(path);
        exit(2);
    }
    size_t n = fread(bytes, 1, MOST, in);
    fclose(in);
    return n;
}

static int refused(const char *part, uint32_t answer)
{
    printf("%s: refused %u", part, saktroum_number(answer));
    if (saktroum_number(answer) == SAKTROUM_REFUSED_ILL_FORMED)
        printf(", node %u", saktroum_node(answer));
    putchar('\n');
    return 1;
}

/* The file's start from token 0, interval 0 without end, flag clear, by the reading of 2017. */
static int run(size_t file_bytes, size_t report_bytes)
{
    size_t read[5], count[1], ran[7];
    uint32_t answer;
    if ((answer = saktroum_read(file, file_bytes, nodes, SAKTROUM_NODE_WORDS, rules, SAKTROUM_RULE_WORDS, read)))
        return refused("read", answer);
    if ((answer = saktroum_scan(file, file_bytes, report, report_bytes, tokens, SAKTROUM_TOKEN_WORDS, count)))
        return refused("scan", answer);
    if ((answer = saktroum_remember(nodes, read[0] * 4, rules, read[1], tokens, count[0] * 4,
                                    (uint16_t)read[3], 0, 0, 0, true, false, (uint16_t)read[4], false,
                                    memory, SAKTROUM_MEMORY_WORDS, ran)))
        return refused("run", answer);
    if (ran[0])
        printf("success, %zu of %zu tokens read, farthest place %zu\n", ran[1], count[0], ran[6]);
    else
        printf("failure, farthest place %zu\n", ran[6]);
    return 0;
}

static void work(void *argument)
{
    struct reading *it = argument;
    it->status = run(it->file_bytes, it->report_bytes);
}

int main(int argc, char **argv)
{
    if (argc != 3) {
        fprintf(stderr, "usage: remember GRAMMAR REPORT\n");
        return 2;
    }
    struct reading it = {load(argv[1], file), load(argv[2], report), 2};
    /* A run may need more stack than a program usually has. */
    int error = saktroum_with_stack(work, &it);
    if (error)
        fprintf(stderr, "no thread with 1 GiB of stack: %s\n", strerror(error));
    return it.status;
}
