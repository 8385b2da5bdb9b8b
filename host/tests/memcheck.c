/* Makes the calls of vectors (standard input) with each buffer a block of its own, under valgrind: memcheck sees every byte read or written outside
 * of them, and every use of a byte that has no value. The output has none before the call: afterwards the first `length` bytes must have values, those
 * of the answer, and all others still none. Where a planner's vector has a whole walk, the optimum's call is made too. Prints how many calls there were and
 * how many differ; `make memcheck` runs it. */
#define _GNU_SOURCE
#include <stdio.h>
#include <stdlib.h>
#include <string.h>
#include <valgrind/memcheck.h>

#include "juzvarola.h"

enum { FIELDS = 32, LISTS = 16, COVERED = 5, RULED = 9, BANDED = 13, LIVES = 3 };

static char *fields[FIELDS];
static int field_count;
/* The calls of the optimum that were not cut short. */
static unsigned optima;

/* Bytes in a block of exactly their length. */
typedef struct {
    uint8_t *at;
    size_t length;
} bytes;

/* Numbers in a block of exactly their length. */
typedef struct {
    uint32_t *at;
    size_t length;
} numbers;

/* The value of the field with this name, or null. */
static const char *named(const char *name) {
    size_t length = strlen(name);
    for (int at = 1; at < field_count; at++) {
        if (strncmp(fields[at], name, length) == 0 && fields[at][length] == '=') {
            return fields[at] + length + 1;
        }
    }
    return NULL;
}

/* The value of a field: by its name, or by its place in a line without names. */
static const char *field(const char *name, int place) {
    const char *own = named(name);
    return own ? own : place > 0 && place < field_count && !strchr(fields[place], '=') ? fields[place] : "-";
}

static size_t number(const char *name, int place) { return strtoul(field(name, place), NULL, 10); }

static uint8_t digit(char own) { return (uint8_t)(own <= '9' ? own - '0' : own - 'a' + 10); }

static bytes hex(const char *name, int place) {
    const char *digits = field(name, place);
    bytes own = {NULL, strcmp(digits, "-") == 0 ? 0 : strlen(digits) / 2};
    own.at = malloc(own.length);
    for (size_t n = 0; n < own.length; n++) {
        own.at[n] = (uint8_t)(digit(digits[2 * n]) << 4 | digit(digits[2 * n + 1]));
    }
    return own;
}

/* The list of this name; as many zeros as this where the line has no such list. */
static numbers list(const char *name, size_t zeros) {
    const char *rest = named(name);
    numbers own = {NULL, rest ? 0 : zeros};
    for (const char *at = rest; at && strcmp(rest, "-") != 0; at = strchr(at + 1, ',')) {
        own.length++;
    }
    own.at = malloc(own.length * sizeof *own.at);
    for (size_t n = 0; n < own.length; n++) {
        own.at[n] = rest ? (uint32_t)strtoul(rest, NULL, 10) : 0;
        rest = rest && strchr(rest, ',') ? strchr(rest, ',') + 1 : rest;
    }
    return own;
}

/* Whether every byte from `from` on has no value still. */
static int untouched(const bytes *out, size_t from) {
    uint8_t *bits = malloc(out->length);
    VALGRIND_GET_VBITS(out->at, bits, out->length);
    VALGRIND_MAKE_MEM_DEFINED(bits, out->length);
    int same = 1;
    for (size_t n = from; n < out->length && RUNNING_ON_VALGRIND; n++) {
        same &= bits[n] == 0xff;
    }
    free(bits);
    return same;
}

static juzvarola_answer write_form(const bytes *out) {
    static const char *names[LISTS] = {"idles", "openings", "fees", "lives", "lefts", "covered", "removals", "insides", "holders",
                                        "ruled", "bases",    "drops", "leasts", "banded", "lows", "prices"};
    numbers l[LISTS];
    l[LISTS - 1] = list(names[LISTS - 1], 0);
    for (int at = 0; at < LISTS - 1; at++) {
        l[at] = list(names[at], at == COVERED || at == RULED ? l[LIVES].length : at == BANDED ? l[LISTS - 1].length : 0);
    }
    juzvarola_form form = {
        (uint32_t)number("horizon", 0), l[0].at, l[0].length, l[1].at, l[1].length, l[2].at, l[2].length, l[3].at, l[3].length, l[4].at, l[4].length,
        l[5].at, l[5].length, l[6].at, l[6].length, l[7].at, l[7].length, l[8].at, l[8].length, l[9].at, l[9].length, l[10].at, l[10].length,
        l[11].at, l[11].length, l[12].at, l[12].length, l[13].at, l[13].length, l[14].at, l[14].length, l[15].at, l[15].length};
    juzvarola_answer answer = juzvarola_write_form(&form, out->at, out->length);
    for (int at = 0; at < LISTS; at++) {
        free(l[at].at);
    }
    return answer;
}

/* The walk number of a planner's line; where it has none, the number on the text's walk line, or the largest. */
static uint64_t walk_number(const bytes *job) {
    const char *own = named("walk");
    uint64_t walk = own ? strtoull(own, NULL, 10) : 4000000000u;
    for (size_t at = 0; !own && at + 5 <= job->length; at++) {
        if ((at == 0 || job->at[at - 1] == '\n') && memcmp(job->at + at, "walk=", 5) == 0) {
            walk = 0;
            for (at += 5; at < job->length && job->at[at] >= '0' && job->at[at] <= '9' && walk <= 4000000000u; at++) {
                walk = 10 * walk + (job->at[at] - '0');
            }
            return walk;
        }
    }
    return walk;
}

/* Whether a list of numbers has a 0. */
static int has_zero(const char *list) {
    for (const char *at = list; at; at = strchr(at, ',') ? strchr(at, ',') + 1 : NULL) {
        if (at[0] == '0' && (at[1] == ',' || at[1] == 0)) {
            return 1;
        }
    }
    return 0;
}

/* Whether the line is of before and has another answer now: a form with a walk number, a job that was refused for want of the walk line, where
 * `openings` stood in its place, one that was refused for its length and is not any more, or one of
 * before `left` could be 0 that was refused for that. */
static int of_before(void) {
    if (strcmp(fields[0], "write") == 0) {
        return named("walk") != NULL || (number("result", 2) == 3 && has_zero(named("lefts")));
    }
    if (number("result", 2) == 3 && strcmp(field("fault", 7), "6c6566743d30") == 0) {
        return 1;
    }
    if (number("result", 2) == 1 && strlen(field("job", 4)) > 2 * 32768 && strlen(field("job", 4)) <= 2 * JUZVAROLA_MOST_JOB) {
        return 1;
    }
    return number("result", 2) == 2 && strncmp(field("fault", 7), "6f70656e696e67733d", 18) == 0 && !strstr(field("job", 4), "0a77616c6b3d");
}

/* Where the lines behind `floor` start in a planner's answer. */
static size_t behind_floor(const bytes *written) {
    size_t at = 0;
    for (int lines = 0; lines < 3 && at < written->length; at++) {
        lines += written->at[at] == 10;
    }
    return at;
}

/* Makes the optimum's call with this walk number; whether it answered as the planner's vector says, without `nodes` and `floor`. With fewer nodes than the
 * planner's walk has (`cut`) it may be cut short: where it is not, its walks by shares found the plan. */
static int optimum_agrees(const bytes *job, size_t room, uint64_t walk, const bytes *written, int cut) {
    bytes out = {malloc(room), room};
    juzvarola_answer answer = juzvarola_optimum(job->at, job->length, walk, out.at, out.length);
    VALGRIND_CHECK_MEM_IS_DEFINED(&answer.result, 3 * sizeof answer.result);
    VALGRIND_CHECK_MEM_IS_DEFINED(&answer.length, 3 * sizeof answer.length);
    VALGRIND_CHECK_MEM_IS_DEFINED(out.at, answer.length);
    static const char head[] = "result=0\n";
    size_t from = number("result", 2) == 0 ? behind_floor(written) : 0, begun = from ? sizeof head - 1 : 0;
    int same = answer.result == number("result", 2) && answer.line == number("line", 3) && answer.length == begun + written->length - from &&
               memcmp(out.at, head, begun) == 0 && memcmp(out.at + begun, written->at + from, written->length - from) == 0;
    same = (same || (cut && answer.result == JUZVAROLA_CUT_SHORT)) && untouched(&out, answer.length);
    optima += !cut || answer.result == JUZVAROLA_OK;
    free(out.at);
    return same;
}

/* The optimum's calls for a planner's vector that is not cut short: with as many nodes as its walk has, and with one less. */
static int optimum_as_expected(const bytes *job, size_t room, uint64_t walk, const bytes *written) {
    if (number("result", 2) == JUZVAROLA_CUT_SHORT) {
        return 1;
    }
    static const char key[] = "\nnodes=";
    const uint8_t *nodes = number("result", 2) == 0 ? memmem(written->at, written->length, key, sizeof key - 1) : NULL;
    uint64_t count = nodes ? strtoull((const char *)nodes + sizeof key - 1, NULL, 10) : 0;
    return optimum_agrees(job, room, count > 0 ? count : walk, written, 0) && (count < 2 || optimum_agrees(job, room, count - 1, written, 1));
}

/* Makes the call of the line's fields; whether it answered as the vector says. */
static int as_expected(void) {
    const char *call = fields[0];
    bytes job = hex("job", 4), plan = hex("plan", 5), written = hex("written", 6);
    size_t room = number("out", 1);
    /* A form of before a job text could be longer: an output that was long enough is made so long. */
    if (strcmp(call, "write") == 0 && !named("banded") && room >= 32768 && room < JUZVAROLA_WRITE_ROOM) {
        room = JUZVAROLA_WRITE_ROOM;
    }
    bytes out = {malloc(room), room};
    juzvarola_answer answer = {0};
    int same = 1;
    if (strcmp(call, "count") == 0) {
        juzvarola_counted counted = juzvarola_count(job.at, job.length);
        VALGRIND_CHECK_VALUE_IS_DEFINED(counted);
        same = counted.count == number("count", 0);
        answer.result = counted.result;
        answer.line = counted.line;
    } else {
        answer = strcmp(call, "plan") == 0     ? juzvarola_plan(job.at, job.length, walk_number(&job), out.at, out.length)
                 : strcmp(call, "hall") == 0   ? juzvarola_hall(job.at, job.length, walk_number(&job), out.at, out.length)
                 : strcmp(call, "judge") == 0  ? juzvarola_judge(job.at, job.length, plan.at, plan.length, out.at, out.length)
                 : strcmp(call, "latest") == 0 ? juzvarola_latest(job.at, job.length, plan.at, plan.length, out.at, out.length)
                 : strcmp(call, "carry") == 0  ? juzvarola_carry(job.at, job.length, plan.at, plan.length, out.at, out.length)
                                               : write_form(&out);
        VALGRIND_CHECK_MEM_IS_DEFINED(&answer.result, 3 * sizeof answer.result);
        VALGRIND_CHECK_MEM_IS_DEFINED(&answer.length, 3 * sizeof answer.length);
        VALGRIND_CHECK_MEM_IS_DEFINED(out.at, answer.length);
        same = answer.length == written.length && memcmp(out.at, written.at, written.length) == 0 && untouched(&out, answer.length);
    }
    same = same && answer.result == number("result", 2) && answer.line == number("line", 3);
    same = same && (strcmp(call, "plan") != 0 || optimum_as_expected(&job, room, walk_number(&job), &written));
    free(job.at);
    free(plan.at);
    free(written.at);
    free(out.at);
    return same;
}

int main(void) {
    char *line = NULL;
    size_t room = 0;
    unsigned calls = 0, differ = 0;
    while (getline(&line, &room, stdin) > 0) {
        char *rest = line;
        field_count = 0;
        for (char *own; field_count < FIELDS && (own = strsep(&rest, " \n")); field_count++) {
            fields[field_count] = own;
        }
        if (of_before()) {
            continue;
        }
        calls++;
        if (!as_expected()) {
            differ++;
            printf("call %u differs\n", calls);
        }
    }
    free(line);
    printf("%u calls and %u of the optimum, %u differ\n", calls, optima, differ);
    return differ != 0 || calls == 0;
}
