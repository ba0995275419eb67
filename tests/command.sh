#!/bin/sh
# The command ./spur: its lines, its exit statuses and what it says on standard error. The lines on the samples are those of
# samples/README.md, by the model, the spans at their breaches added up from the stamps; those on the recordings that are made here are
# worked out by hand. What a machine can't do is skipped with a word. The last line is 'command: N passed, M failed'.
set -u
root=$(dirname -- "$(dirname -- "$(readlink -f -- "$0")")")
spur=$root/spur
work=$(mktemp -d)
trap 'rm -rf "$work"' EXIT
# The command's own temporary folders: none may be left.
mkdir "$work/rooms"
chmod 755 "$work"
chmod 1777 "$work/rooms"
export TMPDIR="$work/rooms"
passed=0 failed=0

# Counts a test: what it is, and whether it went well (0); the rest is told where it didn't.
count() { # WHAT STATUS DETAIL..
    if [ "$2" -eq 0 ]; then
        passed=$((passed + 1))
    else
        failed=$((failed + 1))
        printf 'FAILED: %s: ' "$1"
        shift 2
        printf '%s\n' "$*"
    fi
}

skip() { printf 'skipped: %s\n' "$*"; }

# Runs a command: the status, all of standard output, and a pattern for all of standard error have to be right.
expect() { # WHAT STATUS LINES COMPLAINT COMMAND..
    what=$1 right=$2 lines=$3 pattern=$4
    shift 4
    said=$("$@" 2>"$work/complaint")
    status=$? complaint=$(cat "$work/complaint") good=1
    # shellcheck disable=SC2254
    case $complaint in $pattern) if [ "$status" -eq "$right" ] && [ "$said" = "$lines" ]; then good=0; fi ;; esac
    count "$what" "$good" "status $status, not $right; it printed '$said' and complained '$complaint'"
}

# The same of ./spur judge, for the verdicts that a recording gets: nothing on standard error.
judged() { # WHAT STATUS LINES WORDS..
    what=$1 right=$2 lines=$3
    shift 3
    expect "$what" "$right" "$lines" '' "$spur" judge "$@"
}

# And for what isn't judged: status 3, nothing on standard output, one line that says why.
unjudged() { # WHAT COMPLAINT WORDS..
    what=$1 pattern=$2
    shift 2
    expect "$what" 3 '' "$pattern" "$spur" judge "$@"
}

boot=$root/samples/boot.rec
conforms='records 4096 span 16163 starts 755 acks 754 aborted 0 open 1
conforming'
breaks='records 2783 span 14678 starts 584 acks 584 aborted 0 open 0
breach rule 8c record 2783 span 14679'
nothing='records 0 span 0 starts 0 acks 0 aborted 0 open 0
conforming'

verdicts() {
    head -c 65535 "$boot" >"$work/torn.rec"
    : >"$work/empty.rec"
    judged 'a conforming recording' 0 "$conforms" "$boot"
    judged 'a breach' 1 "$breaks" "$root/samples/breach.rec"
    judged 'a torn end' 2 'records 4095 span 16162 starts 755 acks 754 aborted 0 open 1
refused 1' "$work/torn.rec"
    judged 'no record' 0 "$nothing" "$work/empty.rec"
}

# The three kinds of rule 8: a START in the first cycle; behind one cycle of RQST; two cycles behind the wave's last START, an attention
# cycle. The first record's stamp is 5 in each, and the record's own less 5 is the span. Behind a breach of rule 2, the stamp being the
# one before it, and of rule 1, a spare bit, it is that of the record before.
early() {
    record 05 02 00 00 00 00 >"$work/8a"
    { quiet 05 && record 06 02 00 00 00 00; } >"$work/8b"
    { quiet 05 && quiet 06 && record 07 43 C0 00 00 00 && quiet 08 && record 09 02 00 00 00 00; } >"$work/8c"
    { record 05 00 00 00 00 00 && record 08 00 00 00 00 00 && record 08 02 00 00 00 00; } >"$work/rule2"
    { record 05 00 00 00 00 00 && record 08 00 00 00 00 00 && bytes 00 00 00 09 02 00 00 00 00 00 00 00 00 00 00 01; } >"$work/rule1"
    judged 'rule 8a' 1 'records 0 span 0 starts 0 acks 0 aborted 0 open 0
breach rule 8a record 0 span 0' "$work/8a"
    judged 'rule 8b' 1 'records 1 span 0 starts 0 acks 0 aborted 0 open 0
breach rule 8b record 1 span 1' "$work/8b"
    judged 'rule 8c' 1 'records 4 span 3 starts 1 acks 1 aborted 0 open 0
breach rule 8c record 4 span 4' "$work/8c"
    judged 'rule 2' 1 'records 2 span 3 starts 0 acks 0 aborted 0 open 0
breach rule 2 record 2 span 3' "$work/rule2"
    judged 'rule 1' 1 'records 2 span 3 starts 0 acks 0 aborted 0 open 0
breach rule 1 record 2 span 3' "$work/rule1"
}

# A recording of one wave: RQST and ARB 10 in each cycle from 0 on, and an attention cycle in 2, 5, 8 and so on, so many of them,
# and two cycles more. With a limit below their number it breaks rule 11 at the first START too many.
turn() { # STARTS
    at=0
    while [ "$at" -lt $((3 * $1 + 2)) ]; do
        lines='\150\000'
        if [ $((at % 3)) -eq 2 ]; then lines='\153\300'; fi
        # shellcheck disable=SC2059
        printf "\\000\\000\\000\\$(printf %03o "$at")$lines\\000\\000\\000\\000\\000\\000\\000\\000\\000\\000"
        at=$((at + 1))
    done
}

from_stdin() { "$spur" judge "$@" <"$boot"; }
# shellcheck disable=SC2002
from_pipe() { cat "$boot" | "$spur" judge "$@"; }
from_fifo() {
    cat "$boot" >"$work/fifo" &
    "$spur" judge "$work/fifo"
}
from_descriptor() { "$spur" judge /dev/fd/3 3<"$boot"; }
# The first nine records, three STARTs among them, are gone when the command begins.
from_the_middle() { { dd bs=144 count=1 >/dev/null 2>&1 && "$spur" judge "$1"; } <"$work/5"; }
from_substitution() { bash -c '"$1" judge <(cat "$2")' bash "$spur" "$boot"; }

inputs() {
    mkfifo "$work/fifo"
    turn 5 >"$work/5"
    expect 'standard input' 0 "$conforms" '' from_stdin
    expect 'standard input as -' 0 "$conforms" '' from_stdin -
    expect 'standard input as /dev/stdin' 0 "$conforms" '' from_stdin /dev/stdin
    expect 'a pipe' 0 "$conforms" '' from_pipe
    expect 'a pipe as /dev/stdin' 0 "$conforms" '' from_pipe /dev/stdin
    expect 'a pipe by name' 0 "$conforms" '' from_fifo
    expect 'a descriptor by name' 0 "$conforms" '' from_descriptor
    judged 'a device' 0 "$nothing" /dev/null
    middle='records 8 span 7 starts 2 acks 2 aborted 0 open 0
conforming'
    expect 'standard input from its middle on' 0 "$middle" '' from_the_middle -
    expect 'the same as /dev/stdin' 0 "$middle" '' from_the_middle /dev/stdin
    if command -v bash >/dev/null 2>&1; then
        expect "a shell's <(..)" 0 "$conforms" '' from_substitution
    else
        skip "a shell's <(..): there is no bash"
    fi
}

from_folder() { "$spur" judge <"$work"; }
from_nothing() { "$spur" judge <&-; }

# Root may read anything, so nobody asks.
permission() {
    cp "$boot" "$work/secret.rec"
    mkdir "$work/closed"
    cp "$boot" "$work/closed/boot.rec"
    chmod 000 "$work/secret.rec" "$work/closed"
    other=
    if [ "$(id -u)" -eq 0 ]; then other='setpriv --reuid=65534 --regid=65534 --clear-groups'; fi
    # shellcheck disable=SC2016
    if $other sh -c 'rt doc && test -r "$0" && test -x "$1"' "$boot" "$spur" >/dev/null 2>&1; then
        # shellcheck disable=SC2086
        {
            expect 'no permission' 3 '' 'spur: *no permission*secret.rec' $other "$spur" judge "$work/secret.rec"
            expect 'a closed folder' 3 '' 'spur: *no permission*closed' $other "$spur" judge "$work/closed/boot.rec"
            expect 'another user' 0 "$conforms" '' $other "$spur" judge "$boot"
        }
    else
        skip "no permission: there is no setpriv, or nobody can't reach this folder"
    fi
    chmod 755 "$work/closed"
}

unreadable() {
    unjudged 'a missing file' "spur: $work/none.rec isn't there" "$work/none.rec"
    unjudged 'a missing folder' "spur: *none/boot.rec isn't there" "$work/none/boot.rec"
    unjudged 'a name of nothing' "spur: * isn't there" ''
    unjudged 'a folder' "spur: $work is a folder" "$work"
    unjudged 'the root folder' 'spur: / is a folder' /
    expect 'a folder as standard input' 3 '' 'spur: *' from_folder
    expect 'a closed standard input' 3 '' 'spur: *' from_nothing
    if [ -r /proc/self/mem ]; then
        unjudged 'a file whose reading fails' 'spur: *' /proc/self/mem
    else
        skip 'a file whose reading fails: there is no /proc/self/mem'
    fi
    permission
}

totals() { # STARTS: what the records of so many STARTs, and the two cycles behind them, add up to
    printf 'records %s span %s starts %s acks %s aborted 0 open 0' $((3 * $1 + 2)) $((3 * $1 + 1)) "$1" "$1"
}
# Record n is in cycle n, so its span is n too.
at_most() { printf '%s\nbreach rule 11 record %s span %s' "$(totals "$1")" $((3 * $1 + 2)) $((3 * $1 + 2)); }
all_pass() { printf '%s\nconforming' "$(totals "$1")"; }

limited_stdin() { "$spur" judge --limit 4 <"$work/17"; }

limits() {
    for starts in 1 5 16 17; do turn "$starts" >"$work/$starts"; done
    judged 'no limit given is 16: 16 STARTs' 0 "$(all_pass 16)" "$work/16"
    judged 'no limit given is 16: 17 STARTs' 1 "$(at_most 16)" "$work/17"
    for limit in 1 2 4 5 15 16; do
        judged "limit $limit" 1 "$(at_most "$limit")" --limit "$limit" "$work/17"
    done
    judged 'limit 1, one START' 0 "$(all_pass 1)" --limit 1 "$work/1"
    judged 'limit 5, five STARTs' 0 "$(all_pass 5)" --limit 5 "$work/5"
    judged 'limit 4, five STARTs' 1 "$(at_most 4)" --limit=4 "$work/5"
    judged 'limit 16, 16 STARTs' 0 "$(all_pass 16)" --limit=16 "$work/16"
    judged 'limit 00016' 0 "$(all_pass 16)" --limit 00016 "$work/16"
    judged 'limit 00016, 17 STARTs' 1 "$(at_most 16)" --limit 00016 "$work/17"
    judged 'limit 04' 1 "$(at_most 4)" --limit 04 -- "$work/17"
    judged 'limit 4, by the model' 1 'records 2241 span 13934 starts 521 acks 521 aborted 0 open 0
breach rule 11 record 2241 span 13935' --limit 4 "$boot"
    expect 'a limit, and standard input' 1 "$(at_most 4)" '' limited_stdin
    for limit in 0 000 17 00017 100 4294967300 18446744073709551620 99999999999999999999999; do
        judged "limit $limit" 2 'refused 3' --limit "$limit" "$work/5"
    done
    for limit in '' x 4x -4 +4 4.0 ' 4' '4 4' 0x4 '*' '4
4'; do
        unjudged "limit '$limit'" 'spur: --limit *' --limit "$limit" "$work/5"
    done
    unjudged 'no limit behind =' 'spur: --limit *' --limit= "$work/5"
    unjudged 'no word behind --limit' 'spur: --limit *' --limit
}

usage() {
    unjudged 'two recordings' 'spur: *' "$boot" "$boot"
    unjudged 'an option that there is not' 'spur: *--none*' --none "$boot"
    unjudged 'a file that is named as an option' 'spur: *-x*' -x
    unjudged 'a limit behind the recording' 'spur: *' "$boot" --limit 4
    list=$("$spur" help)
    commands=$(printf '%s\n' "$list" | sed -n 's/^ *\.\/spur \([a-z]*\).*/\1/p' | tr '\n' ' ')
    count 'the commands that help lists' "$([ "$commands" = 'judge phases accounts report fleet explain vcd quote test soak bench help ' ] && echo 0 || echo 1)" "$commands"
    expect 'help' 0 "$list" '' "$spur" help
    expect '--help' 0 "$list" '' "$spur" --help
    expect 'no command' 3 "$list" '' "$spur"
    expect 'a command that there is not' 3 '' 'spur: *none*' "$spur" none
    expect 'help without the toolchain' 0 "$list" '' env PATH=/usr/bin:/bin "$spur" help
}

in_work() { (cd "$work" && "$@"); }
# A relative path to the command, with a folder of the checkout's name where CDPATH leads.
by_search_path() {
    mkdir -p "$work/${root##*/}"
    (cd "$root/.." && CDPATH=$work "${root##*/}/spur" judge "$boot")
}

names() {
    # shellcheck disable=SC2016
    for name in 'a b' '-x' 'new
line' '50%s%n' "it's" '$(none)' '*' '!' '('; do
        cp "$boot" "$work/$name"
        expect "a file that is named $name" 0 "$conforms" '' in_work "$spur" judge -- "$name"
        rm -- "$work/$name"
        expect "a missing file that is named $name" 3 '' "spur: * isn't there" in_work "$spur" judge -- "$name"
    done
    cp "$boot" "$work/-"
    expect 'a file that is named -' 0 "$conforms" '' in_work "$spur" judge ./-
    ln -s "$spur" "$work/link"
    expect 'the command by a link, from another folder' 0 "$conforms" '' in_work ./link judge "$boot"
    expect 'the command with CDPATH' 0 "$conforms" '' by_search_path
}

to_full() { "$@" >/dev/full; }
to_closed() { "$@" >&-; }
to_reader() { "$@" 1</dev/null; }
# The reader of the pipe is gone when the command begins.
to_nobody() { { sleep 1; "$@"; echo $? >"$work/status"; } | true; return "$(cat "$work/status")"; }
# The bytes of the recording that are left when the command has ended.
left_by_closed() { { "$spur" judge - >&- 2>/dev/null; cat; } <"$boot" | wc -c; }
unwritten="spur: standard output can't be written"

outputs() {
    if [ -c /dev/full ]; then
        expect 'a full standard output' 3 '' "*$unwritten" to_full "$spur" judge "$boot"
        expect 'a full standard output, a breach' 3 '' "*$unwritten" to_full "$spur" judge "$root/samples/breach.rec"
        expect 'help to a full standard output' 3 '' "*$unwritten" to_full "$spur" help
    else
        skip 'a full standard output: there is no /dev/full'
    fi
    expect 'a closed standard output' 3 '' "*$unwritten" to_closed "$spur" judge "$boot"
    expect 'a closed standard output is told before the recording is read' 0 65536 '' left_by_closed
    expect 'a standard output that is open for reading' 3 '' "*$unwritten" to_reader "$spur" judge "$boot"
    expect 'a pipe without a reader' 3 '' "*$unwritten" to_nobody "$spur" judge "$boot"
}

. "$root/tests/progress.sh"
. "$root/tests/firstuse.sh"
. "$root/tests/bootreport.sh"
. "$root/tests/accountscommand.sh"
. "$root/tests/deskcommand.sh"
verdicts
early
inputs
unreadable
limits
usage
names
outputs
boot_report
who_used
analysts_desk
progress
first_use
count 'no temporary folder is left' "$(rmdir "$work/rooms" 2>/dev/null && echo 0 || echo 1)" "$(ls "$work/rooms" 2>/dev/null)"
echo "command: $passed passed, $failed failed"
[ "$failed" -eq 0 ]
