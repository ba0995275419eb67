#!/bin/sh
# Plants the bugs of planted_library.txt, one at a time, in a copy of the library's code, proofs set
# aside, and counts those that show: tests/planted_library.sh [OUTDIR]
# A program with no proof is never built to a file, so the copy is run from source by `rt try`, over
# calls and recordings of the outside tests' makers, and what it writes is held to what the model
# answers. A bug in the boot report is looked for by spurphases, one in the accounts by spuraccounts
# and spurcalls, one in what only spurjudge uses besides by spurjudge, any other by spurcalls.
# LISTS is the number of long lists of 1,500 calls for each of their subjects (5; `rt try` ends a program at 1 MiB), DAMAGED that of damaged
# recordings for each rule in two more (25; fewer where programs run in an emulator), SEED is added to
# the seeds (0), SHOW=1 shows what `rt try` said, ONLY is a piece of the description of those to be
# planted.
here=$(cd "$(dirname "$0")" && pwd)
out=${1:-}
if [ -z "$out" ]; then
    out=$(mktemp -d) || exit 2
    trap 'rm -rf "$out"' EXIT
fi
sh "$here/build.sh" "$out" || exit 2
out=$(cd "$out" && pwd)
copy=$out/library inputs=$out/inputs seed=${SEED:-0}
planted=0 caught=0

edit() { # file, old, new: the first old of the copy's file replaced
    cp "$copy/crates/$1" "$out/whole" || exit 2
    OLD=$2 NEW=$3 awk '
        !done && (at = index($0, ENVIRON["OLD"])) {
            $0 = substr($0, 1, at - 1) ENVIRON["NEW"] substr($0, at + length(ENVIRON["OLD"]))
            done = 1
        }
        { print }
        END { exit !done }' "$out/whole" >"$copy/crates/$1" ||
        { echo "not found in $1: $2"; exit 2; }
}

rm -rf "$copy" "$inputs"
mkdir -p "$copy/crates" "$inputs" || exit 2
cp "$here/../crates.txt" "$copy" || exit 2
for crate in "$here"/../crates/*/; do
    mkdir "$copy/crates/$(basename "$crate")"
    cp -R "$crate/src" "$copy/crates/$(basename "$crate")/src" || exit 2
done
# rt try gives no pipe: here the programs take 1,000 bytes at most in a read, which tears records as
# a pipe does.
edit reading/src/lib.rt 'input.read(buffer)' 'input.read(&mut buffer[..1000])'

# A short list, which the interpreter runs to its end, and long ones, in which it stops after ten
# million steps, first two with 25 damaged recordings for each rule; recordings that conform, with
# a torn end, and with a breach.
"$out/makecalls" mixed 400 $((seed + 1)) >"$inputs/spurcalls.1" || exit 2
"$out/makecalls" damaged "${DAMAGED:-25}" $((seed + 2)) >"$inputs/spurcalls.2" || exit 2
"$out/makecalls" damaged "${DAMAGED:-25}" $((seed + 3)) >"$inputs/spurcalls.3" || exit 2
list=4
while [ "$list" -le $((${LISTS:-5} + 3)) ]; do
    "$out/makecalls" mixed 1500 $((seed + list)) >"$inputs/spurcalls.$list" || exit 2
    list=$((list + 1))
done
"$out/makerec" sound 4000 $((seed + 1)) >"$inputs/spurjudge.1" || exit 2
{ "$out/makerec" wild 3000 $((seed + 2)) && printf torn; } >"$inputs/spurjudge.2" || exit 2
"$out/makerec" breach 4000 3 >"$inputs/spurjudge.3" || exit 2
# Each kind of rule 8; and 8a behind three differences of 2^31, where the span is over 2^32.
"$out/makerec" damage 8a $((seed + 4)) >"$inputs/spurjudge.4" || exit 2
"$out/makerec" damage 8b $((seed + 5)) >"$inputs/spurjudge.5" || exit 2
"$out/makerec" damage 8c $((seed + 6)) >"$inputs/spurjudge.6" || exit 2
record() { # stamp and byte 4, as printf has them
    printf "$1"'\0\0\0\0\0\0\0\0\0\0\0'
}
{
    record '\0\0\0\0\0' && record '\200\0\0\0\0' && record '\0\0\0\0\0' && record '\200\0\0\0\002'
} >"$inputs/spurjudge.7" || exit 2

# Boot reports, the program's words beside the recording: marks, before each up to sixty that are
# nearly marks, and right behind the last one's ACK a breach; marks where reads end, half of them
# asked for; an ACK of the last that breaks a rule; a mark asked for besides, before the breach, a
# torn end and the end; the sample; words for which there are several refusals, or which are none.
reports=0
boot() { # words; the recording on standard input
    reports=$((reports + 1))
    cat >"$inputs/spurphases.$reports" || exit 2
    printf '%s\n' "$@" >"$inputs/words.$reports" || exit 2
}
made() { # seed, bytes off the end, words
    "$out/makerec" marked "$crowd" $((seed + $1)) $marks >"$out/whole" || exit 2
    head -c $(($(wc -c <"$out/whole") - $2)) "$out/whole" >"$out/made" || exit 2
    shift 2
    boot "$@" <"$out/made"
}
few="3/4 12/0 3/4 15/15 0/0 0/15 15/0 8/8 1/2 2/1 6/5 10/1 7/7 4/9 9/4 11/13"
most="$few 13/11 14/3 5/6 3/4 0/8 8/0 2/10 10/2 15/15 1/14 14/1 0/3 3/0 6/6 12/12"
marks="$most 9/10"
crowd=60
made 1 0 16 $marks
crowd=0
made 2 0 16 $few
crowd=60
made 3 17 16 $marks
printf x >>"$inputs/spurphases.$reports" || exit 2
marks=$most
made 4 0 16 $marks 3/3
made 5 21 16 $marks 0/0
made 6 16 16 $marks 1/0
boot 16 10/1 2/1 5/7 11/2 10/1 15/15 <"$here/../samples/phases.rec"
made 7 0 0 16/1 $marks 3/3
made 8 0 17 $marks 3/16
made 9 0 16 $marks 3-3

# Who used the bus: recordings made for the accounts, one with a slot busy for 2^32 cycles or more,
# with a torn end, with a breach; the sample; the hold limit beside the recording, or none.
accounts=0
used() { # the limit, or nothing; the recording on standard input
    accounts=$((accounts + 1))
    cat >"$inputs/spuraccounts.$accounts" || exit 2
    if [ $# -gt 0 ]; then printf '%s\n' "$1" >"$inputs/limit.$accounts" || exit 2; fi
}
owners() { # what, records or rule, seed
    "$out/makerec" "$1" "$2" $((seed + $3)) >"$out/made" || exit 2
}
if [ -d "$here/../crates/spuraccounts" ]; then
    owners owners 3000 1 && used <"$out/made"
    owners late 300 2 && used 16 <"$out/made"
    owners owners 1000 3 && printf torn >>"$out/made" && used <"$out/made"
    owners sound 3000 4 && used 4 <"$out/made"
    owners wild 2000 5 && used <"$out/made"
    for rule in 4 5 8b 12; do
        owners damage "$rule" 6 && used <"$out/made"
    done
    used 17 <"$out/made"
    used x <"$out/made"
    used <"$here/../samples/boot.rec"
fi

# Runs the program over its inputs, all in one `rt try`: 0 where it writes what the model does, 1 where it doesn't, and then $where
# says at which first. A run that ended with no answer, as the interpreter's that ran out of steps, has no say.
try() { # program
    cases=$out/cases
    rm -rf "$cases"
    mkdir "$cases" || exit 2
    for input in "$inputs/$1".*; do
        k=${input##*.}
        words=$inputs/words.$k
        cp "$input" "$cases/$k" || exit 2
        case $1 in
        spurcalls) "$out/modelcalls" ;;
        spurjudge) "$out/modeljudge" ;;
        spuraccounts)
            words=$inputs/limit.$k
            if [ -f "$words" ]; then cp "$words" "$cases/$k.args" || exit 2; fi
            "$out/modelaccounts" $(cat "$words" 2>/dev/null) 2>"$out/none" ;;
        *) cp "$words" "$cases/$k.args" && "$out/modelphases" $(cat "$words") 2>"$out/none" ;;
        esac <"$input" >"$cases/$k.stdout"
    done
    (cd "$copy/crates/$1" && rt try --cases "$cases") >"$out/said" 2>&1 && return 0
    shown=$(sed -n 's/^case=\([0-9]*\) .*\(run=fault\|output=differs\).*/\1/p' "$out/said" | head -n 1)
    if [ -z "$shown" ]; then
        grep -q '^cases=.* fault=0 differs=0 ' "$out/said" && return 0
        cat "$out/said"
        echo "$1 could not be run"
        exit 2
    fi
    where="$1, recording $shown"
    if [ "$1" = spurcalls ]; then
        byte=$(sed -n "s/^the output differs from .$shown.stdout.: at byte \\([0-9]*\\).*/\\1/p" "$out/said" | head -n 1)
        call=$((${byte:-0} / 64))
        op=$(od -An -tu1 -j $((call * 64)) -N 1 "$inputs/$1.$shown" | tr -d ' ')
        where="list $shown, call $call, operation $op"
    fi
    return 1
}

one() { # file, old, new, what
    edit "$1" "$2" "$3"
    planted=$((planted + 1))
    programs=spurcalls shows=
    case $1 in
    stream/* | printed/* | text/* | reading/* | spurjudge/*) programs=spurjudge ;;
    phases/* | phaselines/* | spurphases/*) programs=spurphases ;;
    accountlines/* | spuraccounts/*) programs=spuraccounts ;;
    account*/*) programs='spuraccounts spurcalls' ;;
    esac
    for program in $programs; do
        try "$program" || { shows=1 && break; }
    done
    if [ -z "$shows" ]; then
        echo "MISSED: ${1%%/*}: $4"
    else
        caught=$((caught + 1))
        echo "caught ($where): ${1%%/*}: $4"
        [ -n "$SHOW" ] && cut -c 1-200 "$out/said" | sed 's/^/    /'
    fi
    cp "$out/whole" "$copy/crates/$1"
}

for program in spurcalls spurjudge spurphases $([ "$accounts" -eq 0 ] || echo spuraccounts); do
    try "$program" || {
        cut -c 1-200 "$out/said"
        echo "without a bug $program differs from the model: $where"
        exit 2
    }
done
calls=$(cat "$inputs"/spurcalls.* | wc -c)
echo "without a bug: $((calls / 64)) calls, seven recordings, $reports boot reports and" \
    "$accounts accounts, all as the model answers"
while IFS= read -r file; do
    case $file in '#'* | '') continue ;; esac
    IFS= read -r old
    IFS= read -r new
    IFS= read -r what
    case $what in *"$ONLY"*) one "$file" "$old" "$new" "$what" ;; esac
done <"$here/planted_library.txt"
echo "planted in the library: $caught of $planted caught"
[ "$caught" = "$planted" ]
