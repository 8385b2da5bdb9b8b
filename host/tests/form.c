/* The order form as a struct, from C and from C++: juzvarola_write_form says what juzvarola_write says of the same lists, and a list that is left out is
 * empty. Prints ok and ends with 0, or names the line that is wrong. */
#include <stdio.h>
#include <string.h>

#include "juzvarola.h"

#define COUNT(list) (sizeof(list) / sizeof((list)[0]))
#define CHECK(what)                                         \
    do {                                                    \
        if (!(what)) {                                      \
            printf("line %d: %s is wrong\n", __LINE__, #what); \
            return 1;                                       \
        }                                                   \
    } while (0)

static const uint32_t idles[] = {6}, openings[] = {2, 3, 4, 5}, fees[] = {10, 10, 10, 10}, lives[] = {3, 4}, lefts[] = {2, 4}, covered[] = {1, 0};
static const uint32_t removals[] = {9}, insides[] = {1}, holders[] = {2}, ruled[] = {0, 1}, bases[] = {9}, drops[] = {1}, leasts[] = {7};
static const uint32_t banded[] = {0, 1, 0, 0}, lows[] = {4}, prices[] = {5, 5, 5, 5}, none[] = {0, 0, 0, 0};

static uint8_t out[JUZVAROLA_WRITE_ROOM], other[JUZVAROLA_WRITE_ROOM];

/* The form with every list. */
static juzvarola_form filled(void) {
    juzvarola_form form;
    memset(&form, 0, sizeof form);
    form.horizon = 6;
    form.idles = idles, form.idles_len = COUNT(idles);
    form.openings = openings, form.openings_len = COUNT(openings);
    form.fees = fees, form.fees_len = COUNT(fees);
    form.lives = lives, form.lives_len = COUNT(lives);
    form.lefts = lefts, form.lefts_len = COUNT(lefts);
    form.covered = covered, form.covered_len = COUNT(covered);
    form.removals = removals, form.removals_len = COUNT(removals);
    form.insides = insides, form.insides_len = COUNT(insides);
    form.holders = holders, form.holders_len = COUNT(holders);
    form.ruled = ruled, form.ruled_len = COUNT(ruled);
    form.bases = bases, form.bases_len = COUNT(bases);
    form.drops = drops, form.drops_len = COUNT(drops);
    form.leasts = leasts, form.leasts_len = COUNT(leasts);
    form.banded = banded, form.banded_len = COUNT(banded);
    form.lows = lows, form.lows_len = COUNT(lows);
    form.prices = prices, form.prices_len = COUNT(prices);
    return form;
}

/* Whether the written text ends with these lines. */
static int ends_with(size_t length, const char *lines) {
    return length >= strlen(lines) && memcmp(out + length - strlen(lines), lines, strlen(lines)) == 0;
}

int main(void) {
    juzvarola_form form = filled();
    juzvarola_answer answer = juzvarola_write_form(&form, out, sizeof out);
    CHECK(answer.result == JUZVAROLA_OK && answer.text == JUZVAROLA_NO_TEXT);
    CHECK(ends_with(answer.length, "parts=2\nlife=3\nleft=2\nremoval=9\ninside=1\nholder=2\nprice=5\nlow=4\nhigh=5\nprice=5\nprice=5\n"
                                   "life=4\nleft=4\nbase=9\ndrop=1\nleast=7\n"));
    /* The same lists as plain arguments. */
    juzvarola_answer plain =
        juzvarola_write(6, idles, COUNT(idles), openings, COUNT(openings), fees, COUNT(fees), lives, COUNT(lives), lefts, COUNT(lefts), covered,
                        COUNT(covered), removals, COUNT(removals), insides, COUNT(insides), holders, COUNT(holders), ruled, COUNT(ruled), bases,
                        COUNT(bases), drops, COUNT(drops), leasts, COUNT(leasts), banded, COUNT(banded), lows, COUNT(lows), prices,
                        COUNT(prices), other, sizeof other);
    CHECK(plain.result == answer.result && plain.length == answer.length && memcmp(out, other, answer.length) == 0);
    /* Left out: the idle steps, and what the part with removal lines has. A null list is empty whatever its length says. */
    form.idles = NULL;
    form.covered = none, form.removals = form.insides = form.holders = NULL;
    answer = juzvarola_write_form(&form, out, sizeof out);
    CHECK(answer.result == JUZVAROLA_OK && memcmp(out, "horizon=6\nopenings=4\n", 21) == 0);
    CHECK(ends_with(answer.length, "life=3\nleft=2\nprice=5\nlow=4\nhigh=5\nprice=5\nprice=5\nlife=4\nleft=4\nbase=9\ndrop=1\nleast=7\n"));
    /* Faults, each on the parts line: no mark for a part, a mark that is neither 0 nor 1, a rule too few, prices for a part that has a rule. */
    form.ruled_len = 1;
    answer = juzvarola_write_form(&form, out, sizeof out);
    CHECK(answer.result == JUZVAROLA_OUT_OF_RANGE && answer.text == JUZVAROLA_JOB_TEXT && answer.line == 11);
    form.ruled = fees, form.ruled_len = 2;
    CHECK(juzvarola_write_form(&form, out, sizeof out).line == 11);
    form.ruled = ruled, form.drops = NULL;
    CHECK(juzvarola_write_form(&form, out, sizeof out).line == 11);
    form.drops = drops, form.lows = NULL;
    CHECK(juzvarola_write_form(&form, out, sizeof out).line == 11);
    form.lows = fees, form.lows_len = 1;
    CHECK(juzvarola_write_form(&form, out, sizeof out).result == JUZVAROLA_BAD_BAND);
    form.lows = lows, form.ruled = none;
    CHECK(juzvarola_write_form(&form, out, sizeof out).line == 11);
    CHECK(juzvarola_write_form(&form, out, sizeof out - 1).result == JUZVAROLA_NO_ROOM);
    printf("ok\n");
    return 0;
}
