# shellcheck shell=sh disable=SC2154
# Part of tests/command.sh: the command ./spur phases. The recordings that are made here, and their lines, are worked out by hand.

bytes() { # two hexadecimal digits each
    # shellcheck disable=SC2059
    for byte in "$@"; do printf "\\$(printf %03o "0x$byte")"; done
}

# A record: the stamp's last byte, then RESET to ACK, TM1 to AD28, AD27 to AD20, AD19 to AD12, AD11 to AD4.
record() { bytes 00 00 00 "$@" 00 00 00 00 00 00 00; }

# RQST in cycles 0 and 1; a word write to F3000010, slot 3 and number 4, in cycle 2 with a successful ACK in 4; one to F5000018 (5/6),
# parked, in cycle 6, which fails in 7; the same in cycle 9 with success in 10. Seven, eight records in all.
quiet() { record "$1" 40 00 00 00 00; }
write_34() { record "$1" 02 8F 30 00 01; }
# AD3 to AD0 are 8 here: the high half of the byte behind.
write_56() { bytes 00 00 00 "$1" 02 8F 50 00 01 80 00 00 00 00 00 00; }
success() { record "$1" 01 C0 00 00 00; }
failure() { record "$1" 01 80 00 00 00; }
two_marks() {
    quiet 00
    quiet 01
    write_34 02
    success 04
    write_56 06
    failure 07
    write_56 09
    success 0A
}
first='mark 0 span 2
records 4
complete'
both='mark 0 span 2
mark 1 span 9 diff 7
records 8
complete'

# The same as judged and unjudged are for ./spur judge.
reported() { # WHAT STATUS LINES WORDS..
    what=$1 right=$2 lines=$3
    shift 3
    expect "a boot report: $what" "$right" "$lines" '' "$spur" phases "$@"
}
unreported() { # WHAT COMPLAINT WORDS..
    what=$1 pattern=$2
    shift 2
    expect "a boot report: $what" 3 '' "$pattern" "$spur" phases "$@"
}

reports() {
    two_marks >"$work/two"
    { cat "$work/two" && quiet 0A; } >"$work/two-breach"
    { cat "$work/two" && printf torn; } >"$work/two-torn"
    reported 'two marks' 0 "$both" "$work/two" 3/4 5/6
    reported 'it stops at the last mark' 0 "$first" "$work/two" 3/4
    reported 'numbers with zeros in front' 0 "$both" "$work/two" 003/0004 5/00000000000000000000000006
    reported 'a mark absent' 2 'mark 0 span 2
records 8
refused 10 place 1' "$work/two" 3/4 3/4
    reported 'the first mark absent' 2 'records 8
refused 10 place 0' "$work/two" 4/3 3/4
    reported 'no record' 2 'records 0
refused 10 place 0' /dev/null 3/4
    reported 'a breach behind the last mark' 0 "$both" "$work/two-breach" 3/4 5/6
    reported 'a breach with a mark absent' 1 'mark 0 span 2
mark 1 span 9 diff 7
records 8
breach rule 2 record 8 span 10' "$work/two-breach" 3/4 5/6 3/4
    # slot 3's mark, RQST in cycle 5 alone, and a START in 6
    { quiet 00 && quiet 01 && write_34 02 && success 04 && quiet 05 && write_56 06; } >"$work/early"
    reported 'an early START behind the last mark' 0 "$first" "$work/early" 3/4
    reported 'an early START with a mark absent' 1 'mark 0 span 2
records 5
breach rule 8b record 5 span 6' "$work/early" 3/4 5/6
    reported 'a torn piece behind the last mark' 0 "$both" "$work/two-torn" 3/4 5/6
    reported 'a torn piece with a mark absent' 2 'mark 0 span 9
records 8
refused 1' "$work/two-torn" 5/6 3/4
}

# The sample, its lines being those of samples/README.md.
sample() {
    six='mark 0 span 2482
mark 1 span 4843 diff 2361
mark 2 span 11580 diff 6737
mark 3 span 13244 diff 1664
mark 4 span 14019 diff 775
mark 5 span 14550 diff 531'
    reported 'the sample' 0 "$six
records 2656
complete" "$root/samples/phases.rec" 10/1 2/1 5/7 11/2 10/1 15/15
    reported 'the sample, a mark more' 1 "$six
records 2783
breach rule 8c record 2783 span 14679" "$root/samples/phases.rec" 10/1 2/1 5/7 11/2 10/1 15/15 1/5
    reported 'the sample, two marks exchanged' 1 'mark 0 span 2482
mark 1 span 4843 diff 2361
mark 2 span 13244 diff 8401
records 2783
breach rule 8c record 2783 span 14679' "$root/samples/phases.rec" 10/1 2/1 11/2 5/7
    reported 'the sample, limit 4' 1 'mark 0 span 2482
mark 1 span 4843 diff 2361
mark 2 span 11580 diff 6737
mark 3 span 13244 diff 1664
records 2241
breach rule 11 record 2241 span 13935' --limit 4 "$root/samples/phases.rec" 10/1 2/1 5/7 11/2 10/1 15/15
    judged 'the sample of the boot report, judged' 1 "$breaks" "$root/samples/phases.rec"
}

# 30 marks.
thirty='3/4 3/4 3/4 3/4 3/4 3/4 3/4 3/4 3/4 3/4'
thirty="$thirty $thirty $thirty"

# No limit given is 16; with 1, the second START at one ARB in a wave breaks rule 11: RQST stays active in cycles 0 to 4, and in 5
# it falls; STARTs are in 2 and 5, at ARB 0 both.
refusals() {
    {
        quiet 00 && quiet 01 && record 02 42 8F 30 00 01 && record 03 41 C0 00 00 00
        quiet 04 && write_34 05 && success 06
    } >"$work/turn"
    reported 'no limit given' 0 'mark 0 span 2
mark 1 span 5 diff 3
records 7
complete' "$work/turn" 3/4 3/4
    reported 'limit 2' 0 'mark 0 span 2
mark 1 span 5 diff 3
records 7
complete' --limit 2 "$work/turn" 3/4 3/4
    for limit in 1 01; do
        reported "limit $limit" 1 'mark 0 span 2
records 5
breach rule 11 record 5 span 5' --limit "$limit" "$work/turn" 3/4 3/4
    done
    reported 'limit 1, and a mark before it shows' 0 "${first}" --limit=1 "$work/turn" 3/4
    for limit in 0 17 4294967312 99999999999999999999999; do
        reported "limit $limit" 2 'refused 3' --limit "$limit" "$work/two" 3/4
    done
    reported 'no marks' 2 'refused 9' "$work/two"
    # shellcheck disable=SC2086
    {
        reported '33 marks' 2 'refused 9' "$work/two" $thirty 3/4 3/4 3/4
        reported '32 marks' 2 'mark 0 span 2
records 8
refused 10 place 1' "$work/two" $thirty 3/4 3/4
        reported '33 marks, slot 16, limit 0' 2 'refused 9' --limit 0 "$work/two" $thirty 3/4 3/4 16/0
    }
    for mark in 16/0 0/16 256/0 0/99999999999999999999; do
        reported "$mark" 2 'refused 2' "$work/two" 3/4 "$mark"
    done
    # without FILE it is standard input, and there are no marks
    reported 'no words' 2 'refused 9'
    reported 'a limit alone' 2 'refused 9' --limit 4
    reported 'no marks, limit 0' 2 'refused 9' --limit 0 "$work/two"
    reported 'slot 16, limit 0' 2 'refused 2' --limit 0 "$work/two" 16/0
}

no_report() {
    for mark in '' x 3 3/ /4 / 3/4/5 3//4 3:4 -3/4 3/-4 +3/4 3/+4 0x3/4 3/4x ' 3/4' '3/4 ' '3 /4' '3/4 5/6' 3.0/4 '*' '?/4' '3/4
5/6' --limit; do
        unreported "'$mark' in place of a mark" 'spur: *no mark*' "$work/two" "$mark"
        unreported "'$mark' behind a mark" 'spur: *no mark*' "$work/two" 3/4 "$mark"
    done
    # shellcheck disable=SC2086
    unreported 'no mark among 34' 'spur: x is no mark*' "$work/two" $thirty 3/4 3/4 3/4 x
    unreported 'a limit behind the recording' 'spur: *no mark*' "$work/two" --limit 4 3/4
    unreported 'no mark, and a limit that is none' 'spur: *no mark*' --limit 0 "$work/two" x
    for limit in '' x 4x -4 4.0; do
        unreported "limit '$limit'" 'spur: --limit *' --limit "$limit" "$work/two" 3/4
    done
    unreported 'an option that there is not' 'spur: *--none*' --none "$work/two" 3/4
    unreported 'a missing file' "spur: $work/none.rec isn't there" "$work/none.rec" 3/4
    unreported 'no recording before the marks' "spur: 3/4 isn't there" 3/4 5/6
    unreported 'a folder' "spur: $work is a folder" "$work" 3/4
    expect 'a boot report: a folder as standard input' 3 '' 'spur: *' report_folder
    expect 'a boot report: a closed standard input' 3 '' 'spur: *' report_nothing
    if [ -r /proc/self/mem ]; then
        unreported 'a file whose reading fails' 'spur: *' /proc/self/mem 3/4
    else
        skip 'a boot report: a file whose reading fails: there is no /proc/self/mem'
    fi
}

report_folder() { "$spur" phases - 3/4 <"$work"; }
report_nothing() { "$spur" phases - 3/4 <&-; }
report_stdin() { "$spur" phases "$1" 3/4 5/6 <"$work/two"; }
# shellcheck disable=SC2002
report_pipe() { cat "$work/two" | "$spur" phases - 3/4 5/6; }
report_substitution() { bash -c '"$1" phases <(cat "$2") 3/4 5/6' bash "$spur" "$work/two"; }
# Zeros without end behind the last mark: a stamp that goes back, a breach if it were looked at.
report_endless() { cat "$work/two" /dev/zero | "$spur" phases - 3/4 5/6; }
left_unreported() { { "$spur" phases - 3/4 >&- 2>/dev/null; cat; } <"$work/two" | wc -c; }

inputs_and_outputs() {
    expect 'a boot report: standard input as -' 0 "$both" '' report_stdin -
    expect 'a boot report: standard input as /dev/stdin' 0 "$both" '' report_stdin /dev/stdin
    expect 'a boot report: a pipe' 0 "$both" '' report_pipe
    expect 'a boot report: an endless pipe' 0 "$both" '' report_endless
    if command -v bash >/dev/null 2>&1; then
        expect "a boot report: a shell's <(..)" 0 "$both" '' report_substitution
    else
        skip "a boot report: a shell's <(..): there is no bash"
    fi
    for name in 'a b' '-x' '3' "it's"; do
        cp "$work/two" "$work/$name"
        expect "a boot report: a file that is named $name" 0 "$both" '' in_work "$spur" phases -- "$name" 3/4 5/6
        rm -- "$work/$name"
    done
    if [ -c /dev/full ]; then
        expect 'a boot report: a full standard output' 3 '' "*$unwritten" to_full "$spur" phases "$work/two" 3/4
    fi
    expect 'a boot report: a closed standard output' 3 '' "*$unwritten" to_closed "$spur" phases "$work/two" 3/4
    expect 'a boot report: a closed standard output is told before the recording is read' 0 128 '' left_unreported
    expect 'a boot report: a pipe without a reader' 3 '' "*$unwritten" to_nobody "$spur" phases "$work/two" 3/4
}

boot_report() {
    reports
    sample
    refusals
    no_report
    inputs_and_outputs
}
