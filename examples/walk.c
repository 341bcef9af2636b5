/* Walks the loading script in a file through the circuit in another: walk CIRCUIT SCRIPT. A line a step: the step, the verdict, and how
   many clearances are left. The exit status is 1 where the circuit or the script is refused. */
#include "quelbrift.h"

#include <stdio.h>

#define NODES 256
#define ROOM 512
#define STEPS QUELBRIFT_MAX_STEPS

static uint8_t text[QUELBRIFT_MAX_TEXT + 1]; /* one byte more: a text that is too long shows */
static uint32_t words[NODES * QUELBRIFT_NODE_WORDS], counts[NODES], statuses[STEPS], compatibles[STEPS];
static const uint32_t minutes[QUELBRIFT_MAX_VARIABLES]; /* none: the rows are only counted here */
static uint64_t positives[NODES * ROOM], negatives[NODES * ROOM];
static quelbrift_step steps[STEPS];

static int refused(quelbrift_answer answer)
{
    printf("(refused %u %llu)\n", (unsigned)answer.number, (unsigned long long)answer.place);
    return 1;
}

/* Reads a file into the text; its length goes to `length`. */
static int read_file(const char *name, size_t *length)
{
    FILE *file = fopen(name, "rb");
    if (file == NULL)
        return 0;
    *length = fread(text, 1, sizeof text, file);
    int done = !ferror(file);
    fclose(file);
    return done;
}

static int unreadable(void)
{
    fprintf(stderr, "walk CIRCUIT SCRIPT: a file cannot be read\n");
    return 2;
}

static void print_step(quelbrift_step step, uint32_t status, uint32_t compatible)
{
    static const char *const verdicts[] = {"forbidden", "open", "allowed"};
    if (step.act == QUELBRIFT_DROP)
        printf("(drop %u)", (unsigned)step.variable);
    else
        printf("(set %u %s)", (unsigned)step.variable, step.act == QUELBRIFT_SET_YES ? "yes" : "no");
    printf(" %s %u\n", verdicts[status], (unsigned)compatible);
}

int main(int count, char **arguments)
{
    size_t length;
    if (count != 3 || !read_file(arguments[1], &length))
        return unreadable();
    quelbrift_answer circuit = quelbrift_read(text, length, words, NODES * QUELBRIFT_NODE_WORDS);
    if (circuit.number != QUELBRIFT_DONE)
        return refused(circuit);
    uint32_t variables = (uint32_t)circuit.first, nodes = (uint32_t)circuit.second;

    if (!read_file(arguments[2], &length))
        return unreadable();
    quelbrift_answer script = quelbrift_read_script(text, length, variables, steps, STEPS);
    if (script.number != QUELBRIFT_DONE)
        return refused(script);

    quelbrift_answer walked = quelbrift_walk(words, NODES * QUELBRIFT_NODE_WORDS, variables, nodes, minutes, variables, ROOM, steps,
                                             script.first, positives, NODES * ROOM, negatives, NODES * ROOM, counts, NODES, statuses,
                                             STEPS, compatibles, STEPS);
    if (walked.number != QUELBRIFT_DONE)
        return refused(walked);
    for (size_t i = 0; i < script.first; i++)
        print_step(steps[i], statuses[i], compatibles[i]);
    if (walked.first == 1)
        printf("(allowed from %llu)\n", (unsigned long long)walked.second);
    else
        printf("(not allowed at the end)\n");
    return 0;
}
