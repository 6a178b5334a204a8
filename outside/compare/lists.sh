#!/bin/sh
# The step-list program beside the second one, on generated lists: they must print the same to the byte, and every
# answer of a step must be met. One more list is long: it must take time in proportion, and no more memory than a
# shorter one. LISTS=, SEED= and LONG= change the run; STEPLIST= names another program to stand beside the second one.
set -eu
cd "$(dirname "$0")/../.."
. outside/here.sh
steplist=${STEPLIST:-$RUN target/bin/steplist}
seed=${SEED:-1} lists=${LISTS:-400} long=${LONG:-100000}
under= # what the program is started by, if anything

build() {
    $CC -std=c11 -O2 $strict -Ioutside/second -o "$built/$1" $2
}
build lists outside/compare/lists.c
build measure outside/compare/measure.c
build second-steplist 'outside/second/steplist.c outside/second/second.c'

# The list is kept, to be walked again by hand.
differ() {
    kept=$built/seed-$seed-list-$1.list
    mv "$built/list" "$kept"
    echo "SEED=$seed, list $1, kept as $kept: $2"
    diff "$built/printed" "$built/printed-second" | head -n 20
    exit 1
}

# One list by both: its number, and how many lines where that is not left to chance.
walk() {
    $RUN "$built/lists" "$seed" "$@" >"$built/list"
    $RUN "$built/second-steplist" <"$built/list" >"$built/printed-second"
    $under $steplist <"$built/list" >"$built/printed" || differ "$1" "status $?"
    cmp -s "$built/printed" "$built/printed-second" || differ "$1" '< printed, > by the second program'
    cat "$built/printed" >>"$built/all-printed"
}

: >"$built/all-printed"
number=0
while [ "$number" -lt "$lists" ]; do
    walk "$number"
    number=$((number + 1))
done

# Ten times the lines: about ten times the milliseconds, and the same kilobytes. An emulator's are not the program's.
[ -n "$RUN" ] || under="$built/measure $built/took"
echo 0 0 >"$built/took"
walk 1 $((long / 10))
read -r short_time short_memory <"$built/took"
walk 1 "$long"
read -r time memory <"$built/took"
if [ "$time" -gt $((20 * short_time + 100)) ] || [ "$memory" -gt $((short_memory + 512)) ]; then
    echo "$long lines took $time ms and $memory kB, a tenth of them $short_time ms and $short_memory kB"
    exit 1
fi

awk '
    $1 == 0 { bad_first++; next }
    { met[$2]++ }
    END {
        known = split("0 1 2 17 18 19 21", answers)
        for (i = 1; i <= known; i++) {
            printf "answer %2d %9d steps\n", answers[i], met[answers[i]]
            unmet += !met[answers[i]]
            delete met[answers[i]]
        }
        printf "first line bad %4d lists\n", bad_first
        for (answer in met) { print "NOT AN ANSWER OF A STEP: " answer; strange++ }
        if (unmet || !bad_first) print "NOT ALL OF THESE WERE MET"
        exit unmet || !bad_first || strange
    }' "$built/all-printed"
echo "SEED=$seed: $lists lists agree, and one of $long lines ($time ms, $memory kB; a tenth of it $short_time ms, $short_memory kB)"
