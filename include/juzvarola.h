/* Juzvarola: plans the stops and part changes of a filling line, or of a hall of up to four lines, judges such plans, changes parts as late as given stops allow, carries on from a log
 * of what was done, and writes job texts from order forms. */
#ifndef JUZVAROLA_H
#define JUZVAROLA_H

#include <stddef.h>
#include <stdint.h>

#ifdef __cplusplus
extern "C" {
#endif

/* The version of these declarations. It moves with every change of a declaration, a text or an answer; JUZVAROLA_VERSION is what juzvarola_version
 * answers where header and library are of one version. */
#define JUZVAROLA_VERSION_MAJOR 0
#define JUZVAROLA_VERSION_MINOR 13
#define JUZVAROLA_VERSION_PATCH 0
#define JUZVAROLA_VERSION (JUZVAROLA_VERSION_MAJOR * 1000000u + JUZVAROLA_VERSION_MINOR * 1000u + JUZVAROLA_VERSION_PATCH)

/* The results by name. */
enum {
    JUZVAROLA_OK = 0,            /* the cheapest plan; a plan that keeps every life at its true cost; a job text; a count */
    JUZVAROLA_TOO_LONG = 1,      /* a job text has over JUZVAROLA_MOST_JOB bytes, a plan text or log over JUZVAROLA_MOST_TEXT, or a hall text over JUZVAROLA_MOST_HALL */
    JUZVAROLA_BAD_LINE = 2,      /* a line is not the one that is due, or is not well formed */
    JUZVAROLA_OUT_OF_RANGE = 3,  /* a value is outside its range */
    JUZVAROLA_NOT_RISING = 4,    /* an opening or an idle step doesn't rise, or is past the horizon */
    JUZVAROLA_LEFT_TOO_LONG = 5, /* left is greater than life */
    JUZVAROLA_NO_PLAN = 6,       /* no plan keeps the lives; of a hall, some line has none */
    JUZVAROLA_CUT_SHORT = 7,     /* the walk is longer than its walk number */
    JUZVAROLA_NO_ROOM = 8,       /* the lent output is too short */
    JUZVAROLA_BAD_STOP = 9,      /* a stop or a part of the plan or log doesn't fit the job */
    JUZVAROLA_NOT_KEPT = 10,     /* a part is not kept */
    JUZVAROLA_WRONG_COST = 11,   /* the stated cost is wrong */
    JUZVAROLA_BAD_HOLDER = 12,   /* a holder doesn't rise, is above parts or is the part itself; from juzvarola_count with text 0, the job has a holder */
    JUZVAROLA_BAD_BAND = 13,     /* the low end of a price is above its high end */
    JUZVAROLA_UNLIKE = 14        /* a job of a hall has another horizon or other idle steps than the first, or takes the hall past 16 parts or 64 openings */
};

/* What `text` says: the text at fault. A log stands where a plan text would, a hall text where a job text would. */
enum { JUZVAROLA_NO_TEXT = 0, JUZVAROLA_JOB_TEXT = 1, JUZVAROLA_HALL_TEXT = 1, JUZVAROLA_PLAN_TEXT = 2, JUZVAROLA_LOG = 2 };

/* The most bytes of a job text, of a plan text or log and of a hall text, the bytes that an output needs, those of juzvarola_write and juzvarola_carry, and the greatest walk number and count. */
#define JUZVAROLA_MOST_JOB 40960
#define JUZVAROLA_MOST_TEXT 32768
#define JUZVAROLA_MOST_HALL 65536
#define JUZVAROLA_ROOM 16384
#define JUZVAROLA_WRITE_ROOM 40960
#define JUZVAROLA_MOST_WALK 4000000000u
/* The stack that serves every call but juzvarola_hall, and the stack that serves that one, in bytes. */
#define JUZVAROLA_STACK 2097152
#define JUZVAROLA_HALL_STACK 4194304

/* The library's version: JUZVAROLA_VERSION of the header that it was made with. Compare the two before the first call. */
uint32_t juzvarola_version(void);

/* The answer of a call. The lines that go with it are the first `length` bytes of the lent output.
 *
 * result        0 to 14, as in the specification.
 * text          the text at fault for results 1, 2, 3, 4, 5, 9, 12, 13 and 14: 1 the job or hall, 2 the plan or log. 0 for every other result.
 * line          the line at fault, counted from 1. 0 if there is none, and for result 1.
 * length        the bytes written. Bytes past them keep their values. 0 for result 8.
 * fault_start   where the line at fault starts in the text at fault.
 * fault_length  its length, without its byte 10. An empty line that stands in the text has its own start and length 0.
 *               A line that is missing, result 1, every result with `text` 0 and every answer of juzvarola_write have start 0 and length 0.
 */
typedef struct {
    uint32_t result, text, line;
    size_t length, fault_start, fault_length;
} juzvarola_answer;

/* What juzvarola_count hands over; nothing is written.
 *
 * result, text, line, fault_start and fault_length as above, for the job text alone: results 0 to 5, 12 and 13. There is no count of a job with a
 * holder: where its text has no fault the result is 12 too, with text 0, line 0, fault_start 0 and fault_length 0.
 * count         how many nodes the walk of the job can have at most. 4000000000 means that many or more. 1 for a job with no plan,
 *               and for one without openings. 0 with every result but 0.
 */
typedef struct {
    uint32_t result, text, line, count;
    size_t fault_start, fault_length;
} juzvarola_counted;

/* For all calls:
 *
 * - A pointer is never null. With length 0 it may be any non-null pointer; nothing is read or written through it.
 * - `out` must not overlap a text or a list. These may be the same memory, and are only read.
 * - `out` should have 16,384 bytes or more, for juzvarola_write and juzvarola_carry 40,960: with fewer the result is 8 and nothing is written.
 * - Nothing is kept between calls and no memory is allocated. Calls on several threads at once are allowed where no `out` overlaps
 *   another call's `out`, text or list.
 * - Stack that a call needs: less than 1.5 MB, so a thread of 2 MB serves; juzvarola_hall, which has tables for four lines, 2,824 KB in the deepest walk
 *   that a text allows, so a thread of 4 MB serves. juzvarola_plan and juzvarola_optimum were measured at some 550 KB, and at 1,268 KB on the job whose
 *   search goes deepest (64 openings, sixteen parts that hold each other); juzvarola_carry at 156 KB, juzvarola_latest at 148 KB, juzvarola_write,
 *   juzvarola_judge and juzvarola_count at 144 KB.
 */

/* Plans a job: results 0 to 8, 12 and 13.
 *
 * walk          the walk number: how many nodes the search may walk. With more the result is 7. A number above 4000000000 counts as 4000000000.
 * A `walk` line that a job text still has is checked and set aside: it changes no answer of any call.
 * The plan is the cheapest at the high ends of the prices. Where the job has a `low` line and there is a plan, a `costlow` line stands before the plan lines:
 * what the plan costs at all low ends, as `cost` is what it costs at all high ends. For any prices in between its cost lies between the two.
 */
juzvarola_answer juzvarola_plan(const uint8_t *job, size_t job_len, uint64_t walk, uint8_t *out, size_t out_len);

/* Plans a job, also where the search of juzvarola_plan is hopeless: results 0 to 8, 12 and 13.
 *
 * It searches with another estimate of what is left to pay: each fee and removal is split among the parts that need it.
 * walk          the walk number: how many nodes each walk of the job may have; the walks that find lifts have limits of their own, 20,000 nodes each,
 *               whatever the number. A number above 4000000000 counts as 4000000000.
 * Result 0: `result`, then the plan lines, with a `costlow` line before them where the job has a `low` line. No plan costs less; of the plans that cost as
 * much it is the one of juzvarola_plan, which writes the same bytes behind `floor` wherever it says 0 too.
 * Result 7: the whole search of juzvarola_plan has more nodes than the walk number or 131,072, whichever is less, and one of the walks here has more
 * than the walk number. `result`, then `floor`: no plan costs less, and it is no lower than that of juzvarola_plan; and then, where one of the first
 * nodes of the search of juzvarola_plan (as many at least, and no more than the walk number) is a plan, the lines of the best of these, at its true cost.
 * Within this, which floor is said with 7, which plan stands behind it, and whether 7 is said, may change from version to version; a 0 has always the
 * same bytes.
 */
juzvarola_answer juzvarola_optimum(const uint8_t *job, size_t job_len, uint64_t walk, uint8_t *out, size_t out_len);

/* Plans a hall of up to four lines, which pays the crew's journey once for any step at which some line stops: results 0 to 8 and 12 to 14.
 *
 * text          the lines `machines=N`, 1 to 4, and `call=C`, what a journey costs, 0 to 1000000; and behind them N job texts whole, one for each line. Its lines are
 *               counted through. It has 65,536 bytes or fewer, else result 1.
 * walk          the walk number: how many nodes the search may walk. With more the result is 7. A number above 4000000000 counts as 4000000000.
 * Results 0 and 7: `result`, `nodes`, `floor` and, if there is a plan, `cost`, what the plans cost together with the journeys, and then the plan lines of each line in
 * order, each with what the plan costs its line, without journeys. No `costlow` line is written: the prices are the high ends. With result 0 no set of plans for the lines
 * that keeps every life costs less with the journeys included.
 * Result 6: some line has no plan.
 * Result 14: a job whose horizon or idle steps are not the first job's, or which takes the hall past 16 parts or 64 openings in all; on that job's first line. The job's own
 * faults come first.
 * This call needs a thread of 4 MB (JUZVAROLA_HALL_STACK).
 */
juzvarola_answer juzvarola_hall(const uint8_t *text, size_t text_len, uint64_t walk, uint8_t *out, size_t out_len);

/* Judges a plan of a job: results 0 to 5 and 8 to 13. The plan may state a cost of up to 4000000000, which is compared with the cost at the high ends
 * of the prices; 12 and 13 are faults of the job text only.
 *
 * A plan text of length 0 is the plan of doing nothing, no stops and cost 0: result 10, or 0 where every part outlives the horizon.
 * A host that hands over a file that it could not open as an empty text gets this answer and no fault: look at the file first.
 */
juzvarola_answer juzvarola_judge(const uint8_t *job, size_t job_len, const uint8_t *plan, size_t plan_len, uint8_t *out, size_t out_len);

/* Changes each part of a job at the last stop of a plan that still serves: results 0 to 6, 8, 9, 12 and 13.
 *
 * Of the plan text only the stops count. It is checked whole, as juzvarola_judge checks it (a part line that does not fit the job is result 9), and its changes
 * and its cost are set aside. A plan text of length 0 means no stops.
 * Result 6: no changes at these stops keep every part.
 * Result 0: `result`, then the plan lines with all those stops, the changes and the true cost. A stop at which nothing is changed has `count=0`; a `costlow` line
 * stands before the plan lines where the job has a `low` line. The plan
 * keeps every life, so juzvarola_judge says 0 of it, and each change was forced: the next stop, or the step after the horizon, comes too late after the change before.
 * Where no part's price rises from one of the stops to the next and the job has no holders, no changes at these stops cost less.
 */
juzvarola_answer juzvarola_latest(const uint8_t *job, size_t job_len, const uint8_t *plan, size_t plan_len, uint8_t *out, size_t out_len);

/* Carries on from a job by a log of what was done: results 0 to 5 and 8 to 13.
 *
 * log           a line `step=N`, from 1 to the horizon less 2, and then the lines of a plan, which may not be left out: what was done up to that step, with no
 *               stop after it (else 9) and with its cost, at the high ends of the prices. An empty log is result 2.
 * Result 0: the first `length` bytes of `out` are the text of the job that is left, with no `result` line before it. Its horizon is shorter by the step; idle
 * steps and openings after the step are renumbered, with their fees and prices; the others are gone, one at the step itself too. Of each part `left` is the life
 * that it has not used, 0 where it is used up. A rule is written out as prices, pairs and the lines of removal stay as they were, and no `walk` line is written.
 * A plan of the whole job that begins with the log keeps every life exactly if its rest keeps those of the new job, and costs the log's cost more.
 * Result 10: a part had used more than its life by the step or between changes; the lines are juzvarola_judge's, with the lowest such part. Else result 11: the
 * stated cost is wrong. 12 and 13 are faults of the job text only.
 */
juzvarola_answer juzvarola_carry(const uint8_t *job, size_t job_len, const uint8_t *log, size_t log_len, uint8_t *out, size_t out_len);

/* Writes the text of a job from the lists of an order form: results 0, 3, 4, 5, 8, 12 and 13.
 *
 * The lists stand in the text's order: a fee for each opening, a left for each life, and for each part without a rule one price per opening, part by part.
 * The counts in the text are the lists' lengths; there is no `idles` line if there are no idles. A list may have any length.
 *
 * Four lists are for a part's lines `removal`, `inside` and `holder`, which may be left out:
 * covered       for each part 1 where its lines stand, else 0.
 * removals      one for each part with the lines.
 * insides       how many holders it has, one for each part with the lines.
 * holders       the numbers of all holders, part after part: as many as the insides say together.
 * For a job without these lines `covered` is a 0 for each part, and the other three have length 0.
 *
 * Four more are for a part's lines `base`, `drop` and `least`, a rule in place of its prices:
 * ruled         for each part 1 where it has a rule, else 0.
 * bases, drops, leasts
 *               one each for each part with a rule.
 * For a job without rules `ruled` is a 0 for each part, and the other three have length 0.
 *
 * Two more are for prices quoted from a low end to a high end, lines `low` and `high` in place of `price`:
 * banded        for each number of `prices` 1 where it is the high end of such a pair, else 0.
 * lows          the low end of each pair.
 * For a job without pairs `banded` is a 0 for each price, and `lows` has length 0.
 *
 * Result 0: the first `length` bytes of `out` are the job text, with no `result` line before it. It reads back as the same job, and the numbers of
 * an accepted text without a `walk` line give that text again, byte for byte. A `walk` line is never written.
 * Results 3, 4, 5, 12 and 13: the fault that the text would have had, with `text` 1 and the line that would have held it. Fees not as many as openings give
 * 3 on the `openings` line; lefts not as many as lives, prices not parts without a rule times openings, one of these ten lists with a wrong length, and a
 * `covered`, `ruled` or `banded` that is neither 0 nor 1, on the `parts` line. There is no text of the caller's, so no line at fault is handed over.
 */
juzvarola_answer juzvarola_write(uint32_t horizon, const uint32_t *idles, size_t idles_len, const uint32_t *openings, size_t openings_len,
                                 const uint32_t *fees, size_t fees_len, const uint32_t *lives, size_t lives_len, const uint32_t *lefts, size_t lefts_len,
                                 const uint32_t *covered, size_t covered_len, const uint32_t *removals, size_t removals_len, const uint32_t *insides,
                                 size_t insides_len, const uint32_t *holders, size_t holders_len, const uint32_t *ruled, size_t ruled_len,
                                 const uint32_t *bases, size_t bases_len, const uint32_t *drops, size_t drops_len, const uint32_t *leasts,
                                 size_t leasts_len, const uint32_t *banded, size_t banded_len, const uint32_t *lows, size_t lows_len,
                                 const uint32_t *prices, size_t prices_len, uint8_t *out, size_t out_len);

/* The lists of an order form by name, in the order of juzvarola_write. A list that is left out is null with length 0, so a form set to zeros
 * needs only the lists that it has. */
typedef struct {
    uint32_t horizon;
    const uint32_t *idles;
    size_t idles_len;
    const uint32_t *openings;
    size_t openings_len;
    const uint32_t *fees;
    size_t fees_len;
    const uint32_t *lives;
    size_t lives_len;
    const uint32_t *lefts;
    size_t lefts_len;
    const uint32_t *covered;
    size_t covered_len;
    const uint32_t *removals;
    size_t removals_len;
    const uint32_t *insides;
    size_t insides_len;
    const uint32_t *holders;
    size_t holders_len;
    const uint32_t *ruled;
    size_t ruled_len;
    const uint32_t *bases;
    size_t bases_len;
    const uint32_t *drops;
    size_t drops_len;
    const uint32_t *leasts;
    size_t leasts_len;
    const uint32_t *banded;
    size_t banded_len;
    const uint32_t *lows;
    size_t lows_len;
    const uint32_t *prices;
    size_t prices_len;
} juzvarola_form;

/* Writes the text of a job from a form: juzvarola_write of its lists. */
static inline juzvarola_answer juzvarola_write_form(const juzvarola_form *form, uint8_t *out, size_t out_len) {
    static const uint32_t none = 0;
#define JUZVAROLA_LIST(name) form->name ? form->name : &none, form->name ? form->name##_len : 0
    return juzvarola_write(form->horizon, JUZVAROLA_LIST(idles), JUZVAROLA_LIST(openings), JUZVAROLA_LIST(fees), JUZVAROLA_LIST(lives),
                           JUZVAROLA_LIST(lefts), JUZVAROLA_LIST(covered), JUZVAROLA_LIST(removals), JUZVAROLA_LIST(insides),
                           JUZVAROLA_LIST(holders), JUZVAROLA_LIST(ruled), JUZVAROLA_LIST(bases), JUZVAROLA_LIST(drops), JUZVAROLA_LIST(leasts),
                           JUZVAROLA_LIST(banded), JUZVAROLA_LIST(lows), JUZVAROLA_LIST(prices), out, out_len);
#undef JUZVAROLA_LIST
}

/* Says how long the walk of a job may become, without walking: results 0 to 5, 12 and 13. Below 4000000000 no walk of the job has more nodes than
 * `count`, whatever its walk number, so that with a walk number of `count` or more the planner never answers 7. */
juzvarola_counted juzvarola_count(const uint8_t *job, size_t job_len);

#ifdef __cplusplus
}
#endif

#endif
