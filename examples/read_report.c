/* Reads a report and prints the names that the grammar has, the outcome and, as a tree, what each rule read.
 *
 *     read_report GRAMMAR REPORT [--by-2014]
 *
 * A line of the tree is `NAME LINE:COLUMN TEXT`, both counted from 1, with the text up to its first line break, or `NAME -`
 * if the rule read no token. Before it stand two blanks for each rule around it. After a failure, or a success that leaves
 * tokens, the line below the outcome says where the farthest token is that the run tried: `run: farthest LINE:COLUMN`, or
 * `run: farthest end` behind the last one. With --by-2014 the report is read by the rules of 2014, for data sets that were read
 * so; otherwise by those of 2017.
 */
#include <stdio.h>
#include <stdlib.h>
#include <string.h>

#include "saktroum.h"
#include "saktroum_stack.h"

/* One byte more than a file or report may have, so that one over length is noticed. */
enum { MOST = 65536 };

/* For captures no length is always enough: after 13 twice as many words are lent, up to this many. */
enum { MOST_CAPTURE_WORDS = 1 << 24 };

static uint8_t file[MOST], report[MOST];
static uint16_t nodes[SAKTROUM_NODE_WORDS], rules[SAKTROUM_RULE_WORDS];
static uint32_t tokens[SAKTROUM_TOKEN_WORDS], *captures;

/* How many bytes there are to read and by which rules, and afterwards the exit status. */
struct reading {
    size_t file_bytes, report_bytes;
    bool by_2014;
    int status;
};

static size_t load(const char *path, uint8_t *bytes)
{
    FILE *in = fopen(path, "rb");
    if (!in) {
        perror(path);
        exit(2);
    }
    size_t n = fread(bytes, 1, MOST, in);
    if (ferror(in)) {
        perror(path);
        exit(2);
    }
    fclose(in);
    return n;
}

/* What to do about a refusal. */
static const char *const advice[] = {
    [SAKTROUM_REFUSED_FIELDS] = "this is no grammar file: build it anew",
    [SAKTROUM_REFUSED_SPELLING] = "look at the keywords and rule names: 1 to 32 bytes, no blanks, none there twice",
    [SAKTROUM_REFUSED_COUNTS] = "make the grammar smaller: it may have 512 nodes and 128 rules, and needs a node",
    [SAKTROUM_REFUSED_NODE] = "mend the tool that wrote the nodes",
    [SAKTROUM_REFUSED_RULE] = "mend the tool that wrote the rules and the start",
    [SAKTROUM_REFUSED_ROOM] = "lend more words for the nodes and the rules",
    [SAKTROUM_REFUSED_ILL_FORMED] = "there a rule comes back to itself, or a repeat goes on, without reading a token",
    [SAKTROUM_REFUSED_REPORT] = "split the report, or look how it was recorded: it is too long, or has a byte that is no text",
    [SAKTROUM_REFUSED_COLUMN] = "look for a very long line in the report",
    [SAKTROUM_REFUSED_TOKEN_ROOM] = "split the report: it may have 4,096 tokens",
    [SAKTROUM_REFUSED_TOKENS] = "lend the tokens as a scan wrote them",
    [SAKTROUM_REFUSED_START] = "look at the start: its node, place, interval and mode",
    [SAKTROUM_REFUSED_CAPTURE_ROOM] = "split the report, or name fewer rules: the list of what they read is too long",
    [SAKTROUM_REFUSED_CAPTURE] = "lend the capture as a list wrote it, with the report and the tokens of that run",
    [SAKTROUM_REFUSED_READING] = "by 2014 there is no position (`end` is one) and only mode equal: rewrite it, or read by 2017"
};

static int refused(const char *part, uint32_t answer)
{
    uint32_t number = saktroum_number(answer);
    printf("%s: refused %u", part, number);
    if (number == SAKTROUM_REFUSED_ILL_FORMED)
        printf(", node %u", saktroum_node(answer));
    printf(": %s\n", advice[number]);
    return 1;
}

/* Prints the names that a call gives for 0, 1 and so on, up to the first of no bytes. */
static void print_names(const char *what, size_t file_bytes,
                        size_t name(const uint8_t *, size_t, size_t, uint8_t *, size_t))
{
    uint8_t out[SAKTROUM_NAME_BYTES];
    size_t bytes;
    printf("%s:", what);
    for (size_t i = 0; (bytes = name(file, file_bytes, i, out, sizeof out)); i++)
        printf(" %.*s", (int)bytes, (const char *)out);
    putchar('\n');
}

/* Lends words for captures in the place of those lent before. */
static void lend_captures(size_t words)
{
    free(captures);
    captures = calloc(words, sizeof *captures);
    if (!captures) {
        perror("captures");
        exit(2);
    }
}

/* Runs the file's start from token 0, interval 0 without end, flag clear. (saktroum_run does it without the captures.) */
static uint32_t run(const size_t read[5], size_t token_words, bool by_2014, size_t ran[8])
{
    uint32_t answer = SAKTROUM_REFUSED_CAPTURE_ROOM;
    for (size_t words = SAKTROUM_TOKEN_WORDS; answer == SAKTROUM_REFUSED_CAPTURE_ROOM && words <= MOST_CAPTURE_WORDS;
         words *= 2) {
        lend_captures(words);
        answer = saktroum_list(nodes, read[0] * 4, rules, read[1], tokens, token_words,
                               (uint16_t)read[3], 0, 0, 0, true, false, (uint16_t)read[4], by_2014,
                               captures, words, ran);
    }
    return answer;
}

/* Prints the line and the column of a token, both from 1. */
static void print_place(size_t token)
{
    const uint32_t *words = tokens + token * 4;
    size_t line = 1;
    for (size_t i = 0; i < words[2]; i++)
        line += report[i] == '\n';
    printf("%zu:%u", line, words[1] + 1);
}

/* Prints where the farthest token is, or that the run looked behind the last one. */
static void print_farthest(size_t farthest, size_t count)
{
    printf("run: farthest ");
    if (farthest < count)
        print_place(farthest);
    else
        printf("end");
    putchar('\n');
}

/* Prints the name of a capture's rule and, by where its text lies, what it read. */
static void print_entry(size_t file_bytes, const uint32_t *capture, const size_t shown[3])
{
    uint8_t name[SAKTROUM_NAME_BYTES];
    size_t bytes = saktroum_rule_name(file, file_bytes, capture[0], name, sizeof name), first = 0;
    printf("%*s%.*s ", (int)capture[3] * 2, "", (int)bytes, (const char *)name);
    if (shown[2] == SAKTROUM_IN_FILE) {
        puts("-");
        return;
    }
    const uint8_t *text = report + shown[0];
    while (first < shown[1] && text[first] != '\n')
        first++;
    print_place(capture[1]);
    printf(" %.*s\n", (int)first, (const char *)text);
}

static int print_entries(size_t file_bytes, size_t report_bytes, size_t token_words, size_t count)
{
    size_t shown[3];
    for (const uint32_t *it = captures; it < captures + count * 4; it += 4) {
        uint32_t answer = saktroum_shown(file, file_bytes, report, report_bytes, tokens, token_words,
                                         it[0], it[1], it[2], it[3], shown);
        if (answer)
            return refused("shown", answer);
        print_entry(file_bytes, it, shown);
    }
    return 0;
}

static int read_report(size_t file_bytes, size_t report_bytes, bool by_2014)
{
    size_t read[5], count[1], ran[8];
    uint32_t answer;
    if ((answer = saktroum_read(file, file_bytes, nodes, SAKTROUM_NODE_WORDS, rules, SAKTROUM_RULE_WORDS, read)))
        return refused("read", answer);
    printf("read: %zu nodes, %zu rules, %zu keywords\n", read[0], read[1], read[2]);
    print_names("rules", file_bytes, saktroum_rule_name);
    print_names("keywords", file_bytes, saktroum_keyword);
    if ((answer = saktroum_check(nodes, read[0] * 4, rules, read[1])))
        return refused("check", answer);
    if ((answer = saktroum_scan(file, file_bytes, report, report_bytes, tokens, SAKTROUM_TOKEN_WORDS, count)))
        return refused("scan", answer);
    printf("scan: %zu tokens\n", count[0]);
    if ((answer = run(read, count[0] * 4, by_2014, ran)))
        return refused("run", answer);
    if (!ran[0]) {
        puts("run: failure");
        print_farthest(ran[6], count[0]);
        return 0;
    }
    printf("run: success, %zu of %zu tokens read\n", ran[1], count[0]);
    if (ran[1] < count[0])
        print_farthest(ran[6], count[0]);
    return print_entries(file_bytes, report_bytes, count[0] * 4, ran[7]);
}

static void work(void *argument)
{
    struct reading *it = argument;
    it->status = read_report(it->file_bytes, it->report_bytes, it->by_2014);
}

int main(int argc, char **argv)
{
    bool by_2014 = argc == 4 && !strcmp(argv[3], "--by-2014");
    if (argc != 3 && !by_2014) {
        fprintf(stderr, "usage: read_report GRAMMAR REPORT [--by-2014]\n");
        return 2;
    }
    struct reading it = {load(argv[1], file), load(argv[2], report), by_2014, 2};
    /* A run may need more stack than a program usually has. */
    int error = saktroum_with_stack(work, &it);
    if (error)
        fprintf(stderr, "no thread with 1 GiB of stack: %s\n", strerror(error));
    return it.status;
}
