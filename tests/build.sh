#!/bin/sh
# Builds the outside tests and the benchmark's programs: tests/build.sh OUTDIR
# CC may name another compiler.
set -e
out=${1:?usage: tests/build.sh OUTDIR}
mkdir -p "$out/obj"
out=$(cd "$out" && pwd)
cd "$(dirname "$0")"
flags="-O2 -std=c11 -Wall -Wextra -Werror"
model="record codes contest bus cache judging accounts calls"
makers="make traffic wild owners slow damage callsmake callsbus callscache callsjudge callsaccount"
marks="marks marked"
running="run describe compare"
desk="deskquote deskfleet deskshow deskwhy deskbound deskback deskrows deskfigures"
for c in *.c; do
    ${CC:-cc} $flags -c -o "$out/obj/${c%.c}.o" "$c"
done
link() { # the program, then its objects
    program=$1
    (cd "$out/obj" && ${CC:-cc} -o "../$program" $(for o in "$@"; do echo "$o.o"; done))
}
link modelcalls $model
link modeljudge $model
link outside accountsmet watchdogmet $model $makers $running
link faults bigstreams boundary phasefaults accountfaults marks $model $makers $running
link limits $model $makers $running
link golden goldenrules goldenbreach goldenphases goldenaccounts goldenentries goldenlanes goldenwatchdog $model $makers $running
link modelphases marks $model
link modelaccounts $model
link phases phasewords $marks $model $makers $running
link selftest lookback selfmarks selflanes selfwatchdog marksback selfaccounts accountsback accountsmet watchdogmet $marks $model $makers
link desk $desk $model $makers $running
link modeldesk deskfigures deskrows deskcause run $model make
link vcdsamples
link barpixels
link makerec $marks $model $makers
link makecalls $model $makers
for p in judge make; do
    ${CC:-cc} -O3 -std=c11 -Wall -Wextra -Werror -o "$out/bench$p" "../bench/$p.c"
done
