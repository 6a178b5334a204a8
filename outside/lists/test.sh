#!/bin/sh
# Walks the stored lists. NAME.list must print NAME.out to the byte; a line of bad-first-lines, with good steps after
# it, must end the output at once. STEPLIST= names another program to walk them.
set -eu
cd "$(dirname "$0")/../.."
. outside/here.sh
steplist=${STEPLIST:-$RUN target/bin/steplist}
lists=0 first_lines=0

# Walks the list of standard input: what it prints must be the file.
walk() {
    $steplist >"$built/printed" || { echo "$1: status $?"; exit 1; }
    diff "$2" "$built/printed" >"$built/said" || { echo "$1: < stored, > printed"; head -n 20 "$built/said"; exit 1; }
}

for list in outside/lists/*.list; do
    walk "$list" "${list%.list}.out" <"$list"
    lists=$((lists + 1))
done

bad=outside/lists/bad-first-lines
while [ "$first_lines" -lt "$(wc -l <$bad)" ]; do
    first_lines=$((first_lines + 1))
    { sed -n "${first_lines}p" $bad; printf 's 1 o\nr 1\n'; } >"$built/list"
    walk "$bad, line $first_lines" outside/lists/empty.out <"$built/list"
done
echo "$lists stored lists and $first_lines bad first lines agree"
