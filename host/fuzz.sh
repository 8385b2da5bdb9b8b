#!/bin/sh
# fuzz.sh SECONDS: AFL++ (Debian: afl++), half of the time on the library's calls beside the reference (fuzz/calls.rs), the other half on the program's readers, an eighth each: tables,
# names of parts, job texts and plan texts. What is found is in target/fuzz/NAME/default/crashes and hangs; the exit status is 1 if there is anything. JUZVAROLA_FUZZED is an
# instrumented program to use in place of building one, JUZVAROLA_FUZZED_CALLS the same for the calls; JUZVAROLA_FUZZ names some of calls, table, names, job and plan, to leave out
# the others and share their time.
set -eu
cd "$(dirname "$0")"
command -v afl-fuzz > /dev/null || { echo "fuzz.sh: afl-fuzz is needed (Debian: afl++)" >&2; exit 1; }
scratch=target/fuzz
wanted=${JUZVAROLA_FUZZ:-calls table names job plan}
mkdir -p $scratch

# Coverage by the compiler's own pass; AFL's runtime is linked beside it. Overflows and failed assertions are crashes.
flags="-C passes=sancov-module -C llvm-args=-sanitizer-coverage-level=3 -C llvm-args=-sanitizer-coverage-trace-pc-guard"
flags="$flags -C llvm-args=-sanitizer-coverage-prune-blocks=0 -C codegen-units=1 -C debug-assertions -C overflow-checks"
flags="$flags -C link-arg=/usr/lib/afl/afl-compiler-rt.o"
triple=$(rustc -vV | sed -n 's/^host: //p')
# Builds a program so: instrumented WORDS
instrumented() {
    RUSTFLAGS="$flags" cargo build --quiet --release --target-dir $scratch/build --target "$triple" "$@"
}
export AFL_SKIP_CPUFREQ=1 AFL_I_DONT_CARE_ABOUT_MISSING_CRASHES=1 AFL_NO_UI=1 AFL_NO_AFFINITY=1 AFL_AUTORESUME=1

# For how long a target is run: it has so many of the shares of all that are wanted.
shares() { case $1 in calls) echo 4 ;; *) echo 1 ;; esac; }
all_shares=0
for name in $wanted; do all_shares=$((all_shares + $(shares "$name"))); done
all_seconds=${1:-600}

# Fuzzes a command, with @@ for a file, from the seeds in a folder: fuzz NAME LIMIT COMMAND
fuzz() {
    name=$1 limit=$2; shift 2
    seconds=$((all_seconds * $(shares "$name") / all_shares))
    words=
    [ ! -e $scratch/$name.dict ] || words="-x $scratch/$name.dict"
    nice -n 19 afl-fuzz -i $scratch/seeds-$name -o $scratch/$name $words -t "$limit" -V $seconds -- "$@" > $scratch/$name.log 2>&1 || { tail -n 5 $scratch/$name.log >&2; exit 1; }
    found=$(find $scratch/$name/default/crashes $scratch/$name/default/hangs -name 'id:*' | wc -l)
    echo "$name: $(sed -n 's/^execs_done *: *//p' $scratch/$name/default/fuzzer_stats) runs, $(sed -n 's/^corpus_count *: *//p' $scratch/$name/default/fuzzer_stats) paths, $found found"
    all=$((all + found))
}
all=0
for name in $wanted; do mkdir -p $scratch/seeds-$name; done

# The library's calls. A seed: a call's letter, a digit for the walk number and the output, the texts with a byte 31 between.
fuzz_calls() {
    program=${JUZVAROLA_FUZZED_CALLS:-}
    if [ -z "$program" ]; then
        fuzz/library.sh $scratch/library
        JUZVAROLA_LIBRARY_DIR=$PWD/$scratch/library instrumented --package juzvarola-checks --bin calls --features persistent
        program=$scratch/build/$triple/release/calls
    fi
    seeds=$scratch/seeds-calls heads=../examples/filling_head
    rm -f $seeds/*
    printf 'horizon=9\nidles=2\nidle=3\nidle=4\nwalk=5\nopenings=3\nopening=2\nfee=3\nopening=5\nfee=4\nopening=8\nfee=0\nparts=3\n' > $seeds/held
    printf 'life=4\nleft=3\nremoval=2\ninside=1\nholder=2\nlow=3\nhigh=5\nprice=6\nlow=2\nhigh=2\nlife=5\nleft=5\nremoval=0\ninside=0\nbase=9\ndrop=2\nleast=4\n' >> $seeds/held
    printf 'life=12\nleft=10\nprice=1\nprice=2\nprice=3\n' >> $seeds/held
    for job in $heads/job.txt $seeds/held ../jobs/17_biweek6_rules.txt; do
        # The optimum's walks by shares are walked where its first walk is cut.
        for call in p0 o0 o4 o5 c0; do { printf %s $call; cat "$job"; } > "$seeds/$call-$(basename "$job")"; done
    done
    for letter in j l; do
        { printf '%s0' $letter; cat $heads/job.txt; printf '\037'; cat $heads/plan.txt; } > $seeds/$letter-heads
        { printf '%s0' $letter; cat $seeds/held; printf '\037cost=15\nstops=2\nstop=2\ncount=2\npart=1\npart=2\nstop=5\ncount=0\n'; } > $seeds/$letter-held
    done
    { printf 'a0'; cat $heads/job.txt; printf '\037'; cat $heads/log.txt; } > $seeds/a-heads
    { printf 'a0'; cat $seeds/held; printf '\037step=4\ncost=9\nstops=1\nstop=2\ncount=1\npart=3\n'; } > $seeds/a-held
    { printf 'h0'; cat ../examples/hall/hall.txt; } > $seeds/h-hall
    { printf 'h7machines=2\ncall=7\n'; cat $heads/job.txt $heads/job.txt; } > $seeds/h-heads
    printf 'w09\n3,4\n2,5,8\n3,4,0\n4,5,12\n3,5,10\n1,1,0\n2,0\n1,0\n2\n0,1,0\n9\n2\n4\n1,0,1,0,0,0\n3,2\n5,6,2,1,2,3\n' > $seeds/w-held
    printf 'w06\n\n2,3,4,5\n10,10,10,10\n3,4\n2,4\n0,0\n\n\n\n0,0\n\n\n\n0,0,0,0,0,0,0,0\n\n5,5,5,5,7,7,7,7\n' > $seeds/w-heads
    mv $seeds/held $scratch/held.txt
    grep -o 'line("[a-z]*"' src/lines.rs | sed 's/line("\(.*\)"/"\1="/' | sort -u > $scratch/calls.dict
    fuzz calls 5000 "$program"
}

# The program's readers.
fuzz_program() {
    program=${JUZVAROLA_FUZZED:-}
    if [ -z "$program" ]; then
        instrumented --bin juzvarola
        program=$scratch/build/$triple/release/juzvarola
    fi
    job=../jobs/00_example.txt
    "$program" plan $job -o $scratch/plan.txt --once 2> /dev/null || [ -s $scratch/plan.txt ]
    for name in "$@"; do
        seeds=$scratch/seeds-$name
        case $name in
        table)
            printf 'horizon,52\nidle,30\nopening,10,20,40\nfee,60\npart,life,left,removal,holders,prices\n1,22,12,,,40,40,45\n2,26,26,15,1,"70 to 80"\n3,20,18,,,base,90,drop,5,least,70\n' > $seeds/one
            fuzz table 2000 "$program" write @@
            ;;
        names)
            printf '\357\273\277part;name;order\r\n1;"Seal; lower";S-1\r\n2;Ring;\r\n' > $seeds/one
            fuzz names 2000 "$program" list $job $scratch/plan.txt --csv --from 2027-01-31 --step month --names @@
            ;;
        job)
            cp $job $seeds/one
            printf 'horizon = 6\nFee: "1,0"\n# no\n' > $seeds/two
            fuzz job 2000 "$program" check @@
            ;;
        plan)
            cp $scratch/plan.txt $seeds/one
            printf 'result=0\ncost=1.5\n' > $seeds/two
            fuzz plan 2000 "$program" draw $job @@ -o -
            ;;
        esac
    done
}

readers=
for name in $wanted; do [ "$name" = calls ] || readers="$readers $name"; done
[ "$wanted" = "${readers# }" ] || fuzz_calls
[ -z "$readers" ] || fuzz_program $readers
[ $all = 0 ]
