#!/bin/sh
# Installs into a folder of its own, builds a C program and CMake projects against the installed copy, tries programs, pages, the Python module and the
# completions, uninstalls. Needs cc, pkg-config, cmake, man, python3, bash and xmllint.
set -eu
cd "$(dirname "$0")/../.."
scratch=$(mktemp -d)
trap 'rm -rf "$scratch"' EXIT
fail() { echo "installcheck: $*" >&2; exit 1; }
for tool in cc pkg-config cmake man python3 bash xmllint; do
    command -v "$tool" > /dev/null || fail "$tool is needed (Debian: gcc, pkgconf, cmake, man-db, python3, libxml2-utils)"
done

prefix="$scratch/a prefix"
mkdir "$prefix"
prefix=$(cd "$prefix" && pwd)
# pkg-config does not take a prefix with a blank; the blank is DESTDIR's.
plain="$scratch/prefix"
export MAKEFLAGS=--no-print-directory
make -s install PREFIX="$plain" DESTDIR=
python=/usr/lib/python3/dist-packages
make -s install PREFIX=/usr DESTDIR="$prefix" PYTHONDIR="$python"
calls=$(sed -n 's/^\(static inline \)*[a-z][a-z0-9_]* \(juzvarola_[a-z_]*\).*/\2/p' ../include/juzvarola.h)
installed="bin/juzvarola bin/juzvarola-hall bin/juzvarola-judge bin/juzvarola-optimum bin/juzvarola-planner include/juzvarola.h lib/libjuzvarola.a lib/libjuzvarola.so.0 lib/pkgconfig/juzvarola.pc
lib/cmake/juzvarola/juzvarola-config.cmake lib/cmake/juzvarola/juzvarola-config-version.cmake lib/python3/dist-packages/juzvarola.py
share/bash-completion/completions/juzvarola share/man/man1/juzvarola-hall.1 share/man/man1/juzvarola-judge.1 share/man/man1/juzvarola-optimum.1 share/man/man1/juzvarola.1 share/man/man1/juzvarola-planner.1
share/man/man3/juzvarola.3 share/man/man5/juzvarola-hall.5 share/man/man5/juzvarola-job.5 share/man/man5/juzvarola-json.5 share/man/man5/juzvarola-plan.5 share/man/man5/juzvarola-table.5
$(for call in $calls; do echo share/man/man3/$call.3; done)"
for place in "$plain" "$prefix/usr"; do
    found=$(cd "$place" && find . -type f | sed 's|^\./||' | sort | tr '\n' ' ')
    [ "$found" = "$(echo $installed | tr ' ' '\n' | sort | tr '\n' ' ')" ] || fail "$place has $found"
done
grep -q '^prefix=/usr$' "$prefix/usr/lib/pkgconfig/juzvarola.pc" || fail "DESTDIR must not stand in juzvarola.pc"

export PKG_CONFIG_PATH="$plain/lib/pkgconfig"
version=$(pkg-config --modversion juzvarola)
[ "juzvarola $version" = "$("$plain/bin/juzvarola" --version)" ] || fail "juzvarola.pc says $version"
job=../jobs/00_example.txt
expected=$("$plain/bin/juzvarola-planner" < $job)
[ "$(echo "$expected" | head -n 1)" = "result=0" ] || fail "planner says $expected"
# The optimum's program prints the planner's plan; the hall of the examples has plans.
[ "$("$plain/bin/juzvarola-optimum" < $job)" = "$(echo "$expected" | grep -v -e '^nodes=' -e '^floor=')" ] || fail "the optimum's program says something else"
[ "$("$plain/bin/juzvarola-hall" < ../examples/hall/hall.txt | head -n 1)" = "result=0" ] || fail "the hall planner's program finds no plans"

cc -std=c11 -Wall -Wextra -Werror $(pkg-config --cflags juzvarola) -o "$scratch/plan" tests/installed/plan.c $(pkg-config --libs juzvarola)
[ "$("$scratch/plan" < $job)" = "$expected" ] || fail "the C program says something else"
cmake -S tests/installed -B "$scratch/build" > "$scratch/cmake.log" || { cat "$scratch/cmake.log" >&2; fail "cmake"; }
cmake --build "$scratch/build" > "$scratch/cmake.log" || { cat "$scratch/cmake.log" >&2; fail "cmake --build"; }
[ "$("$scratch/build/plan" < $job)" = "$expected" ] || fail "the CMake project says something else"
# By the package's own files, also after the whole was moved, and not for another minor version.
mv "$plain" "$scratch/moved"
found() { cmake -S tests/installed/package -B "$scratch/$1" -DWANTED="$2" -DCMAKE_PREFIX_PATH="$scratch/moved" > "$scratch/cmake.log" 2>&1; }
found package "${version%.*}" || { cat "$scratch/cmake.log" >&2; fail "cmake finds no package"; }
cmake --build "$scratch/package" > "$scratch/cmake.log" || { cat "$scratch/cmake.log" >&2; fail "cmake --build of the package"; }
[ "$("$scratch/package/plan" < $job)" = "$expected" ] || fail "the CMake package's project says something else"
! found other 0.7 || fail "the CMake package takes itself for another version"
mv "$scratch/moved" "$plain"

cp $job "$scratch/job.txt"
"$plain/bin/juzvarola" plan "$scratch/job.txt" -o "$scratch/plan.txt" 2> /dev/null
[ "$(cd "$scratch" && "$plain/bin/juzvarola-judge")" = "$(printf 'result=0\ncost=37')" ] || fail "judge refuses the plan"
program='import juzvarola, sys; sys.stdout.write(juzvarola.plan(open(sys.argv[1], "rb").read()).lines.decode())'
[ "$(PYTHONDONTWRITEBYTECODE=1 PYTHONPATH="$plain/lib/python3/dist-packages" python3 -c "$program" $job)" = "$expected" ] || fail "the Python module says something else"
# Below a Python's own prefix that Python finds it by itself.
python3 -m venv --without-pip "$scratch/venv"
make -s install PREFIX="$scratch/venv" DESTDIR= PYTHON="$scratch/venv/bin/python3"
[ "$("$scratch/venv/bin/python3" -c "$program" $job)" = "$expected" ] || fail "Python does not find its module below its own prefix"
[ "$(bash -c '. "$1"; COMP_WORDS=(juzvarola jud); COMP_CWORD=1; _juzvarola; echo "${COMPREPLY[@]}"' x "$plain/share/bash-completion/completions/juzvarola")" = judge ] || fail "bash does not complete"
for end in svg html; do
    "$plain/bin/juzvarola" draw "$scratch/job.txt" "$scratch/plan.txt" -o "$scratch/plan.$end" --from 2027-01-04 > /dev/null
    xmllint --noout "$scratch/plan.$end" || fail "xmllint finds faults in plan.$end"
done
"$plain/bin/juzvarola" list "$scratch/job.txt" "$scratch/plan.txt" --json --every 3 | python3 -c 'import json, sys; assert json.load(sys.stdin)["costs"]["total"] == 37' || fail "--json is no JSON"
for call in $calls; do
    MANPATH="$plain/share/man" man -w 3 $call > /dev/null && MANPATH="$plain/share/man" man 3 $call | cat | grep -q "$call" || fail "$call has no page"
done
for page in "$plain"/share/man/man[15]/* "$plain/share/man/man3/juzvarola.3"; do
    [ -z "$(man --warnings -l "$page" 2>&1 > /dev/null)" ] || fail "$page has faults"
    grep -q "juzvarola $version" "$page" || fail "$page has another version"
done
words=$(man -l "$plain/share/man/man1/juzvarola.1" | tr -s ' ')
for command in plan judge latest carry list draw compare count worth whatif front join hall write check completion; do
    "$plain/bin/juzvarola" help $command | grep -o -e '^  -[a-z]' -e '--[a-z]*' | sort -u | while read -r option; do
        echo "$words" | grep -q -e "$option" || fail "juzvarola.1 has no $option of $command"
    done
    echo "$words" | grep -q "juzvarola $command" || fail "juzvarola.1 has no $command"
done

make -s uninstall PREFIX="$plain" DESTDIR=
make -s uninstall PREFIX=/usr DESTDIR="$prefix" PYTHONDIR="$python"
left=$(find "$plain" "$prefix" -type f)
[ -z "$left" ] || fail "uninstall leaves $left"
echo "installcheck: ok"
