/* Says how long the walk of the job in a file may become, plans it and prints the answer: example JOB. Without a file it fills in the order form of the specification's job, writes the
 * job text and plans that. The exit status is the result number, or 20 where there is no answer. */
#include <stdio.h>

#include "juzvarola.h"

/* One byte more than a text may have: a longer file is refused just as well by these bytes. */
static uint8_t job[JUZVAROLA_MOST_JOB + 1];
static uint8_t out[JUZVAROLA_ROOM];

#define COUNT(list) (sizeof(list) / sizeof((list)[0]))

/* Writes the specification's job text into `job` from lists of numbers: 6 steps, four openings, two parts. */
static juzvarola_answer fill_in(void) {
    static const uint32_t openings[] = {2, 3, 4, 5}, fees[] = {10, 10, 10, 10};
    static const uint32_t lives[] = {3, 4}, lefts[] = {2, 4}, prices[] = {5, 5, 5, 5, 7, 7, 7, 7};
    /* No part has lines of removal, none has its prices by a rule, and no price is a band. */
    static const uint32_t no_part[] = {0, 0}, no_price[] = {0, 0, 0, 0, 0, 0, 0, 0};
    juzvarola_form form = {0};
    form.horizon = 6;
    form.openings = openings, form.openings_len = COUNT(openings);
    form.fees = fees, form.fees_len = COUNT(fees);
    form.lives = lives, form.lives_len = COUNT(lives);
    form.lefts = lefts, form.lefts_len = COUNT(lefts);
    form.covered = no_part, form.covered_len = COUNT(no_part);
    form.ruled = no_part, form.ruled_len = COUNT(no_part);
    form.banded = no_price, form.banded_len = COUNT(no_price);
    form.prices = prices, form.prices_len = COUNT(prices);
    /* Every list that is left out, such as the idle steps, is empty. */
    return juzvarola_write_form(&form, job, sizeof job);
}

int main(int argc, char **argv) {
    size_t length;
    if (juzvarola_version() != JUZVAROLA_VERSION) {
        fprintf(stderr, "the library is of another version than its header\n");
        return 20;
    }
    if (argc == 1) {
        juzvarola_answer written = fill_in();
        length = written.length;
        if (written.result != JUZVAROLA_OK) {
            fwrite(job, 1, length, stdout);
            return (int)written.result;
        }
    } else if (argc == 2) {
        FILE *file = fopen(argv[1], "rb");
        if (!file) {
            perror(argv[1]);
            return 20;
        }
        length = fread(job, 1, sizeof job, file);
        if (ferror(file)) {
            /* A file that can't be read is not an empty text. */
            perror(argv[1]);
            return 20;
        }
        fclose(file);
    } else {
        fprintf(stderr, "usage: %s [JOB]\n", argv[0]);
        return 20;
    }

    juzvarola_counted counted = juzvarola_count(job, length);
    if (counted.result == JUZVAROLA_OK) {
        fprintf(stderr, counted.count == JUZVAROLA_MOST_WALK ? "the walk may have %u nodes or more\n" : "the walk has at most %u nodes\n", (unsigned)counted.count);
    }

    juzvarola_answer answer = juzvarola_plan(job, length, JUZVAROLA_MOST_WALK, out, sizeof out);
    fwrite(out, 1, answer.length, stdout);
    if (answer.text != 0) {
        fprintf(stderr, "%s:%u: ", argc == 2 ? argv[1] : "form", (unsigned)answer.line);
        fwrite(job + answer.fault_start, 1, answer.fault_length, stderr);
        fputc('\n', stderr);
    }
    return (int)answer.result;
}
