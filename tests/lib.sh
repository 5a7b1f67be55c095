# shellcheck shell=sh
# What the tests of the commands share: a room for their files, program files byte by byte, and calls that are judged.
# Each test reads this file by '. "$(dirname "$0")/lib.sh"' and ends with `finish`.
set -u

top=$(cd "$(dirname "$0")/.." && pwd -P)
room=$(mktemp -d) || exit 2
trap 'chmod -R u+rwx "$room"; rm -rf "$room"' EXIT
ninhalto=$top/ninhalto
passed=0 failed=0
# How many lines a call says on standard error beside the reason, where it is not answered.
spoken=0

# ---- program files and memory files, byte by byte

# The given numbers as bytes.
bytes() {
    for b in "$@"; do
        # shellcheck disable=SC2059
        printf "\\$(printf %03o "$b")"
    done
}

zeros() { head -c "$1" /dev/zero; }

# A number in two bytes, and in four, the lowest first.
two() { bytes $(($1 % 256)) $(($1 / 256 % 256)); }
four() { bytes $(($1 % 256)) $(($1 / 256 % 256)) $(($1 / 65536 % 256)) $(($1 / 16777216 % 256)); }

# record NUMBER [KIND VALUE]..: an instruction and its operands, none in a group.
record() {
    bytes "$1" 0
    shift
    left=3
    while [ $# -gt 0 ]; do
        bytes "$1" 0
        four "$2"
        shift 2
        left=$((left - 1))
    done
    zeros $((6 * left))
}

# trailer COUNT
trailer() {
    two 1
    two "$1"
    four $((20 * $1 + 8))
}

# The kinds and instructions that the tests use.
# shellcheck disable=SC2034
constant=1 m=4 sm=5 d=7 label=8 nop=0 ld=1 out=12 for=19 next=20 cj=21 end=23 mov=32 inc=37 dmov=48 ddiv=52

# patched FILE OFFSET BYTE..: its bytes, with others from the offset on
patched() {
    file=$room/$1 at=$2
    shift 2
    head -c "$at" "$file"
    bytes "$@"
    tail -c +$((at + $# + 1)) "$file"
}

# Programs that are refused by 1 to 8, and the folders that the tests use.
refused_programs() {
    bytes 1 2 3 4 5 6 7 >"$room/refused-1"
    { record $nop; record 200; record $end; trailer 3; } >"$room/refused-2"
    { record $ld $d 0; record $end; trailer 2; } >"$room/refused-3"
    { record $ld $sm 0; record $dmov $d 0 $d 7899; record $end; trailer 3; } >"$room/refused-4"
    { record $nop; record $out $m 0; record $end; trailer 3; } >"$room/refused-5"
    { record $nop; record $nop; record $next; record $end; trailer 4; } >"$room/refused-6"
    { record $ld $sm 0; record $cj $label 5; record $end; trailer 3; } >"$room/refused-7"
    { record $for $constant 32767; record $for $constant 32767; record $next; record $next; record $end; trailer 5; } >"$room/refused-8"
}

# ---- calls

# reason 'refused NUMBER record RECORD': the line on standard error tells the number, and the record where the number has one.
reason() {
    refusal=${1#refused } told_record=${1##* }
    refusal=${refusal%% *}
    case $refusal in
    [2-7] | 13) told=": refusal $refusal at record $told_record (" ;;
    15) told=": refusal 15 at line $told_record, " ;;
    *) told=": refusal $refusal: " ;;
    esac
    grep -qF "$told" "$room/said-err" || why="$why; no '$told' on standard error"
}

counted() {
    if [ -z "$why" ]; then
        passed=$((passed + 1))
    else
        failed=$((failed + 1))
        printf 'failed: %s: %s\n' "$*" "$why"
    fi
}

# judged STATUS OUTPUT WORDS..: after a call, with what it printed in said-out and said-err.
judged() {
    status=$1 output=$2
    shift 2
    [ "$got" = "$status" ] || why="$why; exit status $got and not $status"
    [ "$(cat "$room/said-out")" = "$output" ] || why="$why; printed '$(cat "$room/said-out")' and not '$output'"
    [ "$status" != 1 ] || reason "$output"
    lines=$(wc -l <"$room/said-err")
    [ "$lines" -eq $(((status > 0) + spoken)) ] || why="$why; $lines lines on standard error"
    counted "$@"
}

# tried STATUS OUTPUT WORDS..: runs the words in $room.
tried() {
    wanted=$1 line=$2
    shift 2
    (cd "$room" && "$@") >"$room/said-out" 2>"$room/said-err"
    got=$? why=''
    judged "$wanted" "$line" "$@"
}

# expect STATUS OUTPUT BEFORE AFTER WORDS..: runs `ninhalto` with the words in $room; 'it' among them is a copy of BEFORE, which must then
# be as AFTER, and nothing else may be left beside it.
expect() {
    wanted=$1 line=$2 before=$3 after=$4
    shift 4
    rm -f "$room/it"
    cp "$room/$before" "$room/it"
    (cd "$room" && "$ninhalto" "$@") >"$room/said-out" 2>"$room/said-err"
    got=$? why=''
    cmp -s "$room/it" "$room/$after" || why="; the file is not as $after"
    for left in "$room"/it.* "$room"/folder/* "$room"/locked/*; do
        [ ! -e "$left" ] || why="$why; $left was left"
    done
    judged "$wanted" "$line" "$@"
}

# same WHAT WANTED GOT
same() {
    why=''
    [ "$2" = "$3" ] || why="'$3' and not '$2'"
    counted "$1"
}

# replaced OUTPUT BEFORE AFTER COMMAND ARGUMENTS..: how the file that a command changes is replaced. It is the first argument.
replaced() {
    answer=$1 old=$2 new=$3 command=$4
    shift 4
    # A file whose folder cannot be written stays as it is. (To root nothing is locked.)
    cp "$room/$old" "$room/locked/it"
    chmod a-w "$room/locked"
    if [ "$(id -u)" != 0 ]; then
        tried 2 '' "$ninhalto" "$command" locked/it "$@"
        same 'a file in a locked folder' '' "$(cmp "$room/$old" "$room/locked/it")"
        cp "$room/$old" "$room/it"
        chmod 0 "$room/it"
        tried 2 '' "$ninhalto" "$command" it "$@"
        chmod 600 "$room/it"
        same 'a file that cannot be read' '' "$(cmp "$room/$old" "$room/it")"
    fi
    chmod u+w "$room/locked"
    rm -f "$room/locked/it"
    # The mode stays.
    for mode in 600 644 666 400; do
        rm -f "$room/it"
        cp "$room/$old" "$room/it"
        chmod $mode "$room/it"
        tried 0 "$answer" "$ninhalto" "$command" it "$@"
        same "mode $mode" $mode "$(stat -c %a "$room/it")"
    done
    # A mode that cannot be given is told; the answer stands. So does the mode where the answer cannot be written, which is told too.
    rm -f "$room/it"
    cp "$room/$old" "$room/it"
    mkdir -p "$room/no-chmod"
    printf '#!/bin/sh\nexit 1\n' >"$room/no-chmod/chmod"
    chmod 755 "$room/no-chmod/chmod"
    (cd "$room" && PATH=$room/no-chmod:$PATH "$ninhalto" "$command" it "$@") >"$room/said-out" 2>"$room/said-err"
    same 'no chmod: status' 0 $?
    same 'no chmod: answer' "$answer" "$(cat "$room/said-out")"
    same 'no chmod: words' 'ninhalto: it: replaced, but not with the mode that it had' "$(cat "$room/said-err")"
    same 'no chmod: file' '' "$(cmp "$room/it" "$room/$new")"
    rm -f "$room/it"
    cp "$room/$old" "$room/it"
    chmod 640 "$room/it"
    (cd "$room" && "$ninhalto" "$command" it "$@") >/dev/full 2>"$room/said-err"
    same 'a full disk: status' 2 $?
    same 'a full disk: words' 'ninhalto: the answer could not be written' "$(cat "$room/said-err")"
    same 'a full disk: file' '' "$(cmp "$room/it" "$room/$new")"
    same 'a full disk: mode' 640 "$(stat -c %a "$room/it")"
    # A link stays a link, and another name of the old file keeps the old bytes.
    rm -f "$room/it"
    cp "$room/$old" "$room/it"
    ln -s ../it "$room/folder/link"
    ln "$room/it" "$room/other-name"
    tried 0 "$answer" "$ninhalto" "$command" folder/link "$@"
    same 'through a link' '' "$(cmp "$room/it" "$room/$new")"
    same 'the link' ../it "$(readlink "$room/folder/link")"
    same 'the old file by its other name' '' "$(cmp "$room/$old" "$room/other-name")"
    ln -s nowhere "$room/folder/broken"
    tried 2 '' "$ninhalto" "$command" folder/broken "$@"
    rm -f "$room/folder/link" "$room/folder/broken"
    # Names with spaces, and like an option.
    cp "$room/$old" "$room/a name with spaces"
    tried 0 "$answer" "$ninhalto" "$command" 'a name with spaces' "$@"
    same 'a name with spaces' '' "$(cmp "$room/a name with spaces" "$room/$new")"
    cp "$room/$old" "$room/folder/-f"
    # shellcheck disable=SC2016
    tried 0 "$answer" sh -c 'cd folder && n=$0 && c=$1 && shift && "$n" "$c" -f "$@"' "$ninhalto" "$command" "$@"
    same 'a name that looks like an option' '' "$(cmp "$room/folder/-f" "$room/$new")"
    rm -f "$room/folder/-f"
    # What is no regular file, or is not there.
    for wrong in missing folder '' /dev/null; do tried 2 '' "$ninhalto" "$command" "$wrong" "$@"; done
    [ ! -e "$room/missing" ] || same 'a missing file' 'not made' 'made'
}

# Words that are no unsigned 32-bit number.
# shellcheck disable=SC2034
no_numbers='x 1x x1 -1 +1 0x10 1.5 1e3 4294967296 18446744073709551616 99999999999999999999999999999999'

finish() {
    echo "$passed passed, $failed failed"
    [ "$failed" -eq 0 ]
}

mkdir "$room/folder" "$room/locked"
refused_programs
# The first call builds, if need be.
{ record $end; trailer 1; } >"$room/end-alone"
"$ninhalto" check "$room/end-alone" >/dev/null || exit 2
