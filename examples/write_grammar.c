/* Writes the grammar file of a table that a tool of one's own has built.
 *
 *     write_grammar LENDING TABLE FILE
 *
 * LENDING is a grammar file that lends its keywords and rule names. TABLE is a text with a line for each node, in their
 * order, then one for each rule, then the start; # begins a comment, and a blank line says nothing:
 *
 *     node KIND A B RELATION
 *     rule NODE
 *     start NODE MODE
 *
 * FILE is written only where the writer refuses nothing.
 */
#include <stdio.h>
#include <stdlib.h>
#include <string.h>

#include "saktroum.h"

/* One byte more than a grammar file may have, so that one over length is noticed. */
enum { MOST = 65536 };

static uint8_t lending[MOST], file[SAKTROUM_FILE_BYTES];

/* A node and a rule more than a table may have, for the same reason. */
static uint16_t nodes[SAKTROUM_NODE_WORDS + 4], rules[SAKTROUM_RULE_WORDS + 1];

struct table {
    size_t node_words, rule_words;
    uint16_t node, mode;
    bool started;
};

static FILE *opened(const char *path, const char *how)
{
    FILE *stream = fopen(path, how);
    if (!stream) {
        perror(path);
        exit(2);
    }
    return stream;
}

/* Ends with the place in the table and what it should be. */
static void wrong(const char *path, unsigned line, const char *what)
{
    fprintf(stderr, "%s:%u: %s\n", path, line, what);
    exit(2);
}

/* Takes the numbers of a line, all below 65,536, and answers how many there are; -1 where something else stands there. */
static int numbers(uint16_t *into, int most)
{
    int count = 0;
    for (char *word; (word = strtok(NULL, " \t\r\n")); count++) {
        unsigned long number = strtoul(word, NULL, 10);
        if (word[strspn(word, "0123456789")] || number > 65535 || count == most)
            return -1;
        into[count] = (uint16_t)number;
    }
    return count;
}

/* Puts a line into the table; answers what is wrong with it, or nothing. */
static const char *put(struct table *table, char *line)
{
    uint16_t words[4];
    char *word = strtok(line, " \t\r\n");
    if (!word)
        return NULL;
    int count = numbers(words, 4);
    if (table->started)
        return "nothing may stand behind the start";
    if (!strcmp(word, "node") && count == 4) {
        if (table->rule_words)
            return "the nodes stand before the rules";
        if (table->node_words < SAKTROUM_NODE_WORDS + 4) {
            memcpy(nodes + table->node_words, words, sizeof words);
            table->node_words += 4;
        }
    } else if (!strcmp(word, "rule") && count == 1) {
        if (table->rule_words < SAKTROUM_RULE_WORDS + 1)
            rules[table->rule_words++] = words[0];
    } else if (!strcmp(word, "start") && count == 2) {
        table->node = words[0], table->mode = words[1], table->started = true;
    } else {
        return "a line is `node KIND A B RELATION`, `rule NODE` or `start NODE MODE`, with numbers below 65,536";
    }
    return NULL;
}

static struct table read_table(const char *path)
{
    FILE *in = opened(path, "r");
    struct table table = {0};
    char line[1024];
    unsigned count = 0;
    while (fgets(line, sizeof line, in)) {
        count++;
        if (!strchr(line, '\n') && !feof(in))
            wrong(path, count, "the line has over 1,022 characters, or a byte 0");
        line[strcspn(line, "#")] = 0;
        const char *what = put(&table, line);
        if (what)
            wrong(path, count, what);
    }
    if (ferror(in)) {
        perror(path);
        exit(2);
    }
    fclose(in);
    if (!table.started)
        wrong(path, count + 1, "the start is missing: `start NODE MODE`");
    return table;
}

/* The lowest node whose words are wrong: the last of the first nodes that 4 refuses. */
static size_t wrong_node(const struct table *table)
{
    size_t words = 4;
    while (saktroum_number(saktroum_check(nodes, words, rules, table->rule_words)) != SAKTROUM_REFUSED_NODE)
        words += 4;
    return words / 4 - 1;
}

/* Tells what 5 refuses: the first rule whose node is not there, or the start. */
static void tell_rule(const char *path, const struct table *table)
{
    size_t count = table->node_words / 4;
    for (size_t r = 0; r < table->rule_words; r++)
        if (rules[r] >= count) {
            fprintf(stderr, "%s: refused 5: rule %zu stands for node %u of %zu nodes\n", path, r, rules[r], count);
            return;
        }
    fprintf(stderr, "%s: refused 5: the start is node %u of %zu nodes in mode %u, and modes go to 34\n", path, table->node,
            count, table->mode);
}

/* Tells whose check refused the call, and what to do about it. */
static int refused(uint32_t answer, size_t bytes, const char *path, const char *from, const struct table *table)
{
    static uint16_t n[SAKTROUM_NODE_WORDS], r[SAKTROUM_RULE_WORDS];
    size_t read[5];
    if (saktroum_read(lending, bytes, n, SAKTROUM_NODE_WORDS, r, SAKTROUM_RULE_WORDS, read))
        fprintf(stderr, "%s: refused %u: lend a grammar file that the reader takes\n", path, answer);
    else if (answer == SAKTROUM_REFUSED_COUNTS)
        fprintf(stderr, "%s: refused 3: a table has 1 to 512 nodes and at most 128 rules\n", from);
    else if (answer == SAKTROUM_REFUSED_NODE)
        fprintf(stderr, "%s: refused 4: look at the words of node %zu\n", from, wrong_node(table));
    else if (answer == SAKTROUM_REFUSED_RULE)
        tell_rule(from, table);
    else
        fprintf(stderr, "%s: refused %u: write %zu rules, one for each name of %s\n", from, answer, read[1], path);
    return 1;
}

int main(int count, char **words)
{
    if (count != 4) {
        fprintf(stderr, "usage: %s LENDING TABLE FILE\n", words[0]);
        return 2;
    }
    FILE *in = opened(words[1], "rb");
    size_t bytes = fread(lending, 1, MOST, in), written[1];
    if (ferror(in)) {
        perror(words[1]);
        return 2;
    }
    fclose(in);
    struct table table = read_table(words[2]);
    uint32_t answer = saktroum_write(lending, bytes, nodes, table.node_words, rules, table.rule_words, table.node,
                                     table.mode, file, sizeof file, written);
    if (answer)
        return refused(answer, bytes, words[1], words[2], &table);
    answer = saktroum_check(nodes, table.node_words, rules, table.rule_words);
    if (answer)
        fprintf(stderr, "%s: warning: node %u is not well formed, and no run will begin: %s\n", words[2], saktroum_node(answer),
                "there a rule comes back to itself, or a repeat goes on, without reading a token");
    FILE *out = opened(words[3], "wb");
    if (fwrite(file, 1, written[0], out) != written[0] || fclose(out)) {
        perror(words[3]);
        return 2;
    }
    printf("%zu nodes, %zu rules, %zu bytes\n", table.node_words / 4, table.rule_words, written[0]);
    return 0;
}
