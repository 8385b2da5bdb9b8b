#!/bin/sh
# prove.sh NAME..: proves these crates and all that they stand on, one line for each crate that has changed ("12 of 45: walk, 15 s"); puts the static library of the crate
# juzvarola into target/staticlib, and any other, which is a program and is run once on nothing, into target/bin. All that rt and the prover say goes to
# target/log/make.log, which is named where something fails. RT is the command to use.
set -u
cd "$(dirname "$0")/.."
mkdir -p target/log
log=target/log/make.log
: > "$log"
rt=${RT:-rt}

# How many crates these are, with what they stand on.
total=$(awk -v names="$*" '
    /^[a-z]/ { at = index($0, ":"); split(substr($0, 1, at - 1), head, " "); own[head[1]] = substr($0, at + 1) }
    function reach(name,   i, n, list) {
        if (!(name in own) || (name in seen)) return
        seen[name] = 1; count++
        n = split(own[name], list, " ")
        for (i = 1; i <= n; i++) reach(list[i])
    }
    END { n = split(names, list, " "); for (i = 1; i <= n; i++) reach(list[i]); print count + 0 }' crates.txt)

# Makes each crate in its folder, with the crates below it, up to the first that fails.
make_all() {
    for crate in "$@"; do
        case $crate in juzvarola) command=lib ;; *) command=run ;; esac
        (cd "crates/$crate" && "$rt" $command < /dev/null) 2>&1
        status=$?
        echo "rt ended with $status"
        [ $status = 0 ] || return
    done
}

# Shows a line for each crate of which rt says that it is proved now, or not proved; rt's exit status.
show() {
    proved=0; status=1; since=$(date +%s)
    while IFS= read -r line; do
        case $line in
        "crate "*": modules loaded="*) crate=${line#crate }; crate=${crate%%:*}; checked=${line##* checked=} ;;
        "logic=proved "*)
            now=$(date +%s)
            [ "$checked" = 0 ] || { proved=$((proved + 1)); echo "$proved of $total: $crate, $((now - since)) s"; }
            since=$now ;;
        "logic=not-proved"*) echo "$crate NOT PROVED" ;;
        "rt ended with "*) status=${line##* } ;;
        esac
    done
    [ "$status" != 0 ] || [ $proved = "$total" ] || echo "$((total - proved)) of $total unchanged"
    return "$status"
}

make_all "$@" | tee -a "$log" | show || { status=$?; echo "What the prover said is in $log" >&2; exit $status; }
made=
for crate in "$@"; do
    case $crate in
    juzvarola) file=libjuzvarola.a folder=target/staticlib ;;
    *) file=$crate folder=target/bin ;;
    esac
    mkdir -p $folder
    cp -f "crates/$crate/out/$file" $folder/ || { echo "$file was not made; what was said is in $log" >&2; exit 1; }
    made="$made $folder/$file"
done
echo "$total crates proved:$made"
