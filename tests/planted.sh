#!/bin/sh
# Plants the bugs of planted.txt, one at a time, in a copy of the model that stands in for the
# programs, and counts those that the outside tests catch: tests/planted.sh [OUTDIR]
# COUNT is the outside tests' share (30), SHOW=1 shows what was found, made small, ONLY is a piece
# of the file's name, a blank and the description of those to be planted.
here=$(cd "$(dirname "$0")" && pwd)
out=${1:-$(mktemp -d)}
count=${COUNT:-30}
sh "$here/build.sh" "$out" || exit 2
out=$(cd "$out" && pwd)
"$out/outside" --judge "$out/modeljudge" --calls "$out/modelcalls" \
    --accounts "$out/modelaccounts" --count "$count" --seed 1 |
    tail -n 1 | sed 's/^/without a bug: /'
"$out/phases" --program "$out/modelphases" --count "$count" --seed 1 |
    tail -n 1 | sed 's/^/without a bug: /'
"$out/desk" --quote "$out/modeldesk quote" --seconds "$out/modeldesk seconds" --fleet "$out/modeldesk fleet" \
    --show "$out/modeldesk show" --why "$out/modeldesk why" --count "$count" --seed 1 |
    tail -n 1 | sed 's/^/without a bug: /'
planted=0 caught=0

plant() { # file, old, new: a copy of the file with the first old replaced, and the programs with it
    rm -rf "$out/bug"
    mkdir -p "$out/bug/obj"
    cp "$out/obj"/*.o "$out/bug/obj"
    OLD=$2 NEW=$3 awk '
        !done && (at = index($0, ENVIRON["OLD"])) {
            $0 = substr($0, 1, at - 1) ENVIRON["NEW"] substr($0, at + length(ENVIRON["OLD"]))
            done = 1
        }
        { print }
        END { exit !done }' "$here/$1" >"$out/bug/$1" ||
        { echo "not found in $1: $2"; exit 2; }
    cd "$out/bug/obj" || exit 2
    ${CC:-cc} -O2 -std=c11 -w -I"$here" -c -o "${1%.c}.o" "../$1" || exit 2
    for p in modelcalls modeljudge modelaccounts; do
        ${CC:-cc} -o "../$p" $p.o record.o codes.o contest.o bus.o cache.o judging.o accounts.o \
            calls.o || exit 2
    done
    ${CC:-cc} -o ../modelphases modelphases.o marks.o record.o codes.o judging.o || exit 2
    ${CC:-cc} -o ../modeldesk modeldesk.o deskfigures.o deskrows.o deskcause.o run.o make.o record.o \
        codes.o judging.o || exit 2
}

# Those of a bug in the boot report, in the desk's programs, and of one in all else.
by_phases() { # file
    "$out/phases" --program "$out/bug/modelphases" --count "$count" --seed 1 --first \
        $([ -z "$SHOW" ] && echo --unshrunk) >"$out/found" 2>&1 || by=phases
    "$out/golden" --phases "$out/bug/modelphases" >/dev/null 2>&1 || by="$by golden"
    case $1 in modelphases.c)
        "$out/faults" --judge "$out/modeljudge" --phases "$out/bug/modelphases" --megabytes 1 \
            --quick >/dev/null 2>&1 || by="$by faults" ;;
    esac
}

by_desk() {
    bug="$out/bug/modeldesk"
    "$out/desk" --quote "$bug quote" --seconds "$bug seconds" --fleet "$bug fleet" --show "$bug show" \
        --why "$bug why" --count "$count" --seed 1 --first >"$out/found" 2>&1 || by=desk
}

by_others() { # file
    "$out/outside" --judge "$out/bug/modeljudge" --calls "$out/bug/modelcalls" \
        --accounts "$out/bug/modelaccounts" --count "$count" --seed 1 --first \
        $([ -z "$SHOW" ] && echo --unshrunk) >"$out/found" 2>&1 || by=outside
    "$out/golden" --judge "$out/bug/modeljudge" --calls "$out/bug/modelcalls" \
        --accounts "$out/bug/modelaccounts" >/dev/null 2>&1 || by="$by golden"
    case $1 in modeljudge.c)
        "$out/faults" --judge "$out/bug/modeljudge" --megabytes 1 >/dev/null 2>&1 ||
            by="$by faults"
        "$out/limits" --judge "$out/bug/modeljudge" >/dev/null 2>&1 || by="$by limits" ;;
    modelaccounts.c)
        "$out/faults" --judge "$out/modeljudge" --accounts "$out/bug/modelaccounts" --megabytes 1 \
            >/dev/null 2>&1 || by="$by faults"
        "$out/limits" --accounts "$out/bug/modelaccounts" >/dev/null 2>&1 || by="$by limits" ;;
    esac
}

one() { # file, old, new, what
    plant "$1" "$2" "$3"
    planted=$((planted + 1))
    by=
    case $1 in
    marks.c | modelphases.c) by_phases "$1" ;;
    desk*.c | modeldesk.c) by_desk ;;
    *) by_others "$1" ;;
    esac
    if [ -n "$by" ]; then
        caught=$((caught + 1))
        echo "caught ($(echo $by)): $4"
        [ -n "$SHOW" ] && sed 's/^/    /' "$out/found"
    else
        echo "MISSED: $4"
    fi
}

while IFS= read -r file; do
    case $file in '#'* | '') continue ;; esac
    IFS= read -r old
    IFS= read -r new
    IFS= read -r what
    case "$file $what" in *"$ONLY"*) one "$file" "$old" "$new" "$what" ;; esac
done <"$here/planted.txt"
echo "planted: $caught of $planted caught"
[ "$caught" = "$planted" ]
