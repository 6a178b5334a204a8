#!/bin/sh
# Puts each fault of faults.txt into a copy of the second program.  A faulty
# second.c stands in the library's place in compare; a faulty steplist.c walks
# the stored lists and some generated ones.  Every fault must be caught.
#
#   outside/compare/faults.sh           the default run for each fault
#   CASES=5000 outside/compare/faults.sh
#
# First the copies without a fault must agree, so that a catch means something.
set -eu

here=$(cd "$(dirname "$0")" && pwd)
root=$(cd "$here/../.." && pwd)
work=$(mktemp -d)
trap 'rm -rf "$work"' EXIT

CC=${CC:-gcc}
flags="-std=c11 -O1 -w -I$root/include -I$root/outside/second"
names="-Dsecond_open=tautrobin_open -Dsecond_send=tautrobin_send
       -Dsecond_arrive=tautrobin_arrive -Dsecond_release=tautrobin_release"

$CC $flags -c -o "$work/compare.o" "$here/compare.c"
$CC $flags -c -o "$work/second.o" "$root/outside/second/second.c"
$CC $flags -o "$work/lists" "$here/lists.c"

# Builds compare with $work/faulty.c as the library.
build_second() {
    $CC $flags $names -c -o "$work/faulty.o" "$work/faulty.c" &&
    $CC -o "$work/compare" "$work/compare.o" "$work/second.o" "$work/faulty.o"
}

# Fails when nothing differs; else says what did.
catch_second() {
    timeout 300 "$work/compare" >"$work/said" 2>&1 && return 1
    how=$(sed -n 's/^FAILED: //p' "$work/said")
    when=$(sed -n 's/^SEED.*, case \([0-9]*\), call \(.*\)/case \1, \2/p' "$work/said")
    echo "$when: ${how:-it broke down}"
}

build_steplist() {
    $CC $flags -o "$work/steplist" "$work/faulty.c" "$work/second.o"
}

# The first of the generated lists that prints something else.
first_generated() {
    for list in "$work"/*.list; do
        timeout 60 "$work/steplist" <"$list" 2>&1 | cmp -s - "${list%.list}.out" || { basename "$list" .list; return; }
    done
    return 1
}

catch_steplist() {
    STEPLIST=$work/steplist timeout 60 "$root/outside/lists/test.sh" >"$work/said" 2>&1 && stored= ||
        stored=$(sed -n '/^outside/{s/: .*//p;q}' "$work/said")
    generated=$(first_generated) || generated=
    [ -n "$stored$generated" ] || return 1
    echo "${stored##*/}${stored:+${generated:+; }}${generated:+generated list $generated}"
}

# Replaces OLD, which must stand exactly once, by NEW.
put_fault() {
    OLD=$1 NEW=$2 awk '
        { at = index($0, ENVIRON["OLD"])
          if (at) {
              found++
              rest = substr($0, at + length(ENVIRON["OLD"]))
              if (index(rest, ENVIRON["OLD"])) found++
              $0 = substr($0, 1, at - 1) ENVIRON["NEW"] rest
          }
          print }
        END { exit found != 1 }' "$root/outside/second/$part.c" >"$work/faulty.c"
}

# A part without a fault: second or steplist.
check_sound() {
    cp "$root/outside/second/$1.c" "$work/faulty.c"
    "build_$1"
    if how=$("catch_$1"); then
        cat "$work/said"
        echo "$1.c without a fault fails: $how"
        exit 1
    fi
}

$CC $flags -o "$work/sound" "$root/outside/second/steplist.c" "$work/second.o"
number=0
while [ "$number" -lt 64 ]; do
    "$work/lists" 1 "$number" >"$work/$number.list"
    "$work/sound" <"$work/$number.list" >"$work/$number.out"
    number=$((number + 1))
done
check_sound second
check_sound steplist

total=0 missed=0
while IFS= read -r line; do
    case $line in
    '' | '#'*) continue ;;
    '@ '*) part=${line#@ }; continue ;;
    esac
    name=${line%%: *}
    pair=${line#*: }
    old=${pair%% =>*}
    new=${pair#*=> }
    total=$((total + 1))
    if ! put_fault "$old" "$new"; then
        echo "NOT PLACED  $name"
        missed=$((missed + 1))
    elif ! "build_$part"; then
        echo "NOT BUILT   $name"
        missed=$((missed + 1))
    elif ! how=$("catch_$part"); then
        echo "NOT CAUGHT  $name"
        missed=$((missed + 1))
    else
        echo "caught      $name ($how)"
    fi
done <"$here/faults.txt"

echo "$total faults, $missed not caught"
[ "$missed" -eq 0 ]
