#!/bin/sh
# What a call takes, of the library and of the second program: its instructions, as valgrind counts them, and its time
# on this processor. x86-64 alone: what an emulator runs is not what a processor runs.
set -eu
cd "$(dirname "$0")/../.."
. outside/here.sh
[ -z "$RUN" ] || { echo 'the speed comparison is for x86-64 machines'; exit 0; }
need valgrind valgrind
$CC -std=c11 -O2 $strict -Iinclude -Ioutside/second -Ioutside/compare -o "$built/speed" \
    outside/speed/speed.c outside/second/second.c "$library"

# The instructions of a call of one program, in the last counts.
counted() {
    callgrind_annotate --inclusive=yes --threshold=100 "$built/counts" |
        awk -v name="$1_call_" -v times="$times" 'index($0, name) { gsub(",", "", $1); print int($1 / times); exit }'
}

row='%-38s %12s %12s %12s %12s\n'
printf "$row" '' instructions '' nanoseconds ''
printf "$row" 'a call' library second library second
"$built/speed" | while read -r time time_second times name; do
    number=$((${number:-0} + 1))
    valgrind -q --tool=callgrind --callgrind-out-file="$built/counts" "$built/speed" "$number" </dev/null
    printf "$row" "$name" "$(counted tautrobin)" "$(counted second)" "$time" "$time_second"
done
echo "nanoseconds on $(sed -n 's/^model name.*: //p' /proc/cpuinfo | head -n 1)"
