# shellcheck shell=sh disable=SC2154
# Part of tests/command.sh: the command ./spur accounts. The recordings that are made here, and their lines, are worked out by hand;
# the lines on the samples are the model's, in both its forms. bytes, record, quiet and two_marks are those of bootreport.sh, turn
# and the totals of its recordings those of command.sh.

# The lines of ./spur judge, then sixteen, of the slots that are told; the others have none.
with_slots() { # LINES SLOT/STARTS/BUSY ..
    printf '%s\n' "$1"
    shift
    slot=0
    while [ "$slot" -lt 16 ]; do
        starts=0 busy=0
        for told in "$@"; do
            case $told in "$slot"/*)
                busy=${told##*/} starts=${told%/*}
                starts=${starts#*/}
                ;;
            esac
        done
        printf 'slot %s starts %s busy %s\n' "$slot" "$starts" "$busy"
        slot=$((slot + 1))
    done
}

# The same as judged and unjudged are for ./spur judge.
accounted() { # WHAT STATUS LINES WORDS..
    what=$1 right=$2 lines=$3
    shift 3
    expect "accounts: $what" "$right" "$lines" '' "$spur" accounts "$@"
}
unaccounted() { # WHAT COMPLAINT WORDS..
    what=$1 pattern=$2
    shift 2
    expect "accounts: $what" 3 '' "$pattern" "$spur" accounts "$@"
}

# RQST in cycles 0 and 1; a START of slot 10 in 2 with its ACK in 4; a parked START with ARB 5 in 6, and RESET in 9; RQST in 10 and 11;
# an attention cycle of slot 0 in 12; a parked START with ARB 15 in 13, which stays open. Slot 10 has cycles 2 to 4 and 6 to 9, and
# slot 0 cycle 12.
owners() {
    quiet 00
    quiet 01
    record 02 2A 00 00 00 00
    success 04
    record 06 16 00 00 00 00
    record 09 80 00 00 00 00
    quiet 0A
    quiet 0B
    record 0C 03 C0 00 00 00
    record 0D 3E 00 00 00 00
}

used() {
    owners >"$work/owners"
    { owners && record 0E 02 00 00 00 00; } >"$work/owners-breach"
    { owners && printf torn; } >"$work/owners-torn"
    sums='records 10 span 13 starts 4 acks 2 aborted 1 open 1'
    accounted 'two owners' 0 "$(with_slots "$sums
conforming" 10/2/7 0/2/1)" "$work/owners"
    accounted 'a breach' 1 "$(with_slots "$sums
breach rule 4 record 10 span 14" 10/2/7 0/2/1)" "$work/owners-breach"
    accounted 'a torn end' 2 "$(with_slots "$sums
refused 1" 10/2/7 0/2/1)" "$work/owners-torn"
    accounted 'no record' 0 "$(with_slots "$nothing")" /dev/null
    accounted 'a torn piece alone' 2 "$(with_slots 'records 0 span 0 starts 0 acks 0 aborted 0 open 0
refused 1')" "$work/owners-piece"
    # The transfers of two_marks are in cycles 2 to 4, 6 to 7 and 9 to 10, the wave's START being slot 0's.
    accounted 'slot 0' 0 "$(with_slots 'records 8 span 10 starts 3 acks 3 aborted 0 open 0
conforming' 0/3/7)" "$work/two"
}

samples_used() {
    accounted 'the sample' 0 "$(with_slots "$conforms" 1/24/149 2/19/713 5/18/333 10/497/2025 11/41/745 12/52/184 13/42/296 14/36/250 \
        15/26/248)" "$boot"
    set -- 1/1/3 2/15/673 5/12/188 10/484/1899 11/18/493 12/17/71 13/5/104 14/18/126 15/14/108
    accounted 'the sample with a breach' 1 "$(with_slots "$breaks" "$@")" "$root/samples/breach.rec"
    # START in 2, ACK in 4098: 4,097 cycles, both counted; the second transfer is open where rule 12 is broken, 257 cycles after its strobe
    accounted 'the sample with slow blocks' 1 "$(with_slots 'records 21 span 4200 starts 2 acks 1 aborted 0 open 1
breach rule 12 record 21 span 4457' 5/2/4097)" "$root/samples/slow.rec"
}

account_limits() {
    for limit in 1 5 16; do
        accounted "limit $limit" 1 "$(with_slots "$(at_most "$limit")" "10/$limit/$limit")" --limit "$limit" "$work/17"
    done
    accounted 'no limit given is 16' 1 "$(with_slots "$(at_most 16)" 10/16/16)" "$work/17"
    accounted 'limit 16, 16 STARTs' 0 "$(with_slots "$(all_pass 16)" 10/16/16)" --limit=0016 -- "$work/16"
    for limit in 0 17 4294967300 99999999999999999999999; do
        accounted "limit $limit" 2 'refused 3' --limit "$limit" "$work/5"
    done
    for limit in '' x 4x -4 4.0; do
        unaccounted "limit '$limit'" 'spur: --limit *' --limit "$limit" "$work/5"
    done
    unaccounted 'no word behind --limit' 'spur: --limit *' --limit
}

account_stdin() { "$spur" accounts "$@" <"$work/owners"; }
# shellcheck disable=SC2002
account_pipe() { cat "$work/owners" | "$spur" accounts "$@"; }
account_folder() { "$spur" accounts <"$work"; }
account_closed() { "$spur" accounts <&-; }
left_unaccounted() { { "$spur" accounts - >&- 2>/dev/null; cat; } <"$work/owners" | wc -c; }

account_words() {
    unaccounted 'two recordings' 'spur: *' "$work/owners" "$work/owners"
    unaccounted 'an option that there is not' 'spur: *--none*' --none "$work/owners"
    unaccounted 'a limit behind the recording' 'spur: *' "$work/owners" --limit 4
    unaccounted 'a missing file' "spur: $work/none.rec isn't there" "$work/none.rec"
    unaccounted 'a folder' "spur: $work is a folder" "$work"
    expect 'accounts: a folder as standard input' 3 '' 'spur: *' account_folder
    expect 'accounts: a closed standard input' 3 '' 'spur: *' account_closed
    for name in 'a b' '-x'; do
        cp "$work/owners" "$work/$name"
        expect "accounts: a file that is named $name" 0 "$owned" '' in_work "$spur" accounts -- "$name"
        rm -- "$work/$name"
    done
}

account_ways() {
    expect 'accounts: standard input' 0 "$owned" '' account_stdin
    expect 'accounts: standard input as -' 0 "$owned" '' account_stdin -
    expect 'accounts: standard input as /dev/stdin' 0 "$owned" '' account_stdin /dev/stdin
    expect 'accounts: a pipe' 0 "$owned" '' account_pipe
    if [ -c /dev/full ]; then
        expect 'accounts: a full standard output' 3 '' "*$unwritten" to_full "$spur" accounts "$work/owners"
    fi
    expect 'accounts: a closed standard output' 3 '' "*$unwritten" to_closed "$spur" accounts "$work/owners"
    expect 'accounts: a closed standard output is told before the recording is read' 0 160 '' left_unaccounted
    expect 'accounts: a pipe without a reader' 3 '' "*$unwritten" to_nobody "$spur" accounts "$work/owners"
}

who_used() {
    printf torn >"$work/owners-piece"
    used
    owned=$(with_slots 'records 10 span 13 starts 4 acks 2 aborted 1 open 1
conforming' 10/2/7 0/2/1)
    samples_used
    account_limits
    account_words
    account_ways
}
