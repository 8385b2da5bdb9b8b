/* Plans a job from standard input over the installed library. The exit status is the result number, or 99 where header and library differ. */
#include <juzvarola.h>
#include <stdio.h>

int main(void) {
    static uint8_t job[JUZVAROLA_MOST_JOB + 1], out[JUZVAROLA_ROOM];
    if (juzvarola_version() != JUZVAROLA_VERSION) {
        return 99;
    }
    size_t length = fread(job, 1, sizeof job, stdin);
    juzvarola_answer answer = juzvarola_plan(job, length, JUZVAROLA_MOST_WALK, out, sizeof out);
    fwrite(out, 1, answer.length, stdout);
    return answer.result == JUZVAROLA_OK ? 0 : (int)answer.result;
}
