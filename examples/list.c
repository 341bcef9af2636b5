/* Lists the clearances of the circuit whose text is in a file: list FILE [MINUTES ...] [-- FACT FACT ...]. With minutes, a number for each
   fact in turn, the rows with fewer of them come first, and each row's sum is shown. With pairs of facts that cannot both be yes, a row
   that marks both facts of a pair yes is not shown. The exit status is 1 where the circuit, the minutes or the pairs are refused. */
#include "quelbrift.h"

#include <stdio.h>
#include <stdlib.h>
#include <string.h>

#define NODES 256
#define ROOM 512
#define PAIRS 1024

static uint8_t text[QUELBRIFT_MAX_TEXT + 1]; /* one byte more: a text that is too long shows */
static uint32_t words[NODES * QUELBRIFT_NODE_WORDS], counts[NODES];
static uint32_t minutes[QUELBRIFT_MAX_VARIABLES + 1]; /* one more likewise */
static uint32_t firsts[PAIRS], seconds[PAIRS];
static size_t given, facts; /* how many minutes, and how many facts of pairs; an odd number of these makes an incomplete pair */
static uint64_t positives[NODES * ROOM], negatives[NODES * ROOM], shown_positives[ROOM], shown_negatives[ROOM];

static int refused(quelbrift_answer answer)
{
    printf("refused %u at %llu: %s\n", (unsigned)answer.number, (unsigned long long)answer.place, quelbrift_text(answer.number));
    return 1;
}

static int failed(const char *why)
{
    fprintf(stderr, "list FILE [MINUTES ...] [-- FACT FACT ...]: %s\n", why);
    return 2;
}

/* The number that a word gives; where it gives none up to the most, one more than that. */
static uint32_t number_in(const char *word, uint32_t most)
{
    char *end;
    unsigned long number = strtoul(word, &end, 10);
    return end != word && *end == '\0' && number <= most ? (uint32_t)number : most + 1;
}

/* Reads the minutes and, after the word "--", the facts; whether there is room for all facts. */
static int read_words(char **word)
{
    for (; *word != NULL && strcmp(*word, "--") != 0; word++) {
        if (given <= QUELBRIFT_MAX_VARIABLES)
            minutes[given++] = number_in(*word, QUELBRIFT_MAX_MINUTES);
    }
    for (word += *word != NULL; *word != NULL && facts < 2 * PAIRS; word++, facts++)
        (facts % 2 == 0 ? firsts : seconds)[facts / 2] = number_in(*word, QUELBRIFT_MAX_VARIABLES - 1);
    return *word == NULL;
}

/* Prints the marks of a row and, where minutes are given, their sum. */
static void print_row(uint64_t positive, uint64_t negative, uint32_t variables)
{
    unsigned sum = 0;
    for (uint32_t fact = 0; fact < variables; fact++) {
        if ((positive | negative) >> fact & 1) {
            printf(" %c%u", positive >> fact & 1 ? '+' : '-', (unsigned)fact);
            sum += minutes[fact];
        }
    }
    if (given > 0)
        printf(" (%u minutes)", sum);
    printf("\n");
}

int main(int count, char **arguments)
{
    FILE *file = count >= 2 ? fopen(arguments[1], "rb") : NULL;
    size_t length = file ? fread(text, 1, sizeof text, file) : 0;
    if (file == NULL || ferror(file))
        return failed("the file cannot be read");
    if (!read_words(arguments + 2))
        return failed("there are too many pairs");
    quelbrift_answer read = quelbrift_read(text, length, words, NODES * QUELBRIFT_NODE_WORDS);
    if (read.number != QUELBRIFT_DONE)
        return refused(read);
    uint32_t variables = (uint32_t)read.first, nodes = (uint32_t)read.second, last = nodes - 1;
    /* Where no minutes are given, all are 0. */
    quelbrift_answer listed = quelbrift_list(words, NODES * QUELBRIFT_NODE_WORDS, variables, nodes, minutes, given > 0 ? given : variables,
                                             firsts, (facts + 1) / 2, seconds, facts / 2, ROOM, positives, NODES * ROOM, negatives,
                                             NODES * ROOM, counts, NODES, shown_positives, ROOM, shown_negatives, ROOM);
    if (listed.number != QUELBRIFT_DONE)
        return refused(listed);
    printf("%u clearances", (unsigned)counts[last]);
    if (facts > 0)
        printf(", %u shown", (unsigned)listed.first);
    printf("\n");
    for (size_t row = 0; row < listed.first; row++)
        print_row(shown_positives[row], shown_negatives[row], variables);
    return 0;
}
