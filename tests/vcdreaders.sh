#!/bin/sh
# The dumps of spurshow in the hands of others: GTKWave's vcd2fst takes them and fst2vcd gives the same values back, and
# sigrok-cli reads them; all 81 lines are compared cycle for cycle with the recording's own bits, missing cycles as zeros:
#   tests/vcdreaders.sh RUNNER BIN OUT
# The last line is 'vcdreaders: N passed, M failed'. A package that isn't there is a failure, unless SPUR_NO_PACKAGES is 1.
set -u
runner=$1 bin=$2 out=$3
root=$(dirname -- "$(dirname -- "$(readlink -f -- "$0")")")
work=$(mktemp -d)
trap 'rm -rf "$work"' EXIT
passed=0 failed=0
. "$root/tests/packages.sh"

dump() { # RECORDING FROM TO
    # shellcheck disable=SC2086
    $runner "$bin/spurshow" vcd "$2" "$3" <"$1" >"$work/dump.vcd" 2>"$work/complaint"
    count "a dump of $1, $2 to $3" "$([ -s "$work/dump.vcd" ] && [ ! -s "$work/complaint" ] && echo 0 || echo 1)" "$(cat "$work/complaint")"
    "$out/vcdsamples" record "$2" "$3" <"$1" >"$work/right"
}

# The samples in a file are those of the recording.
same() { # WHAT FILE
    cmp "$2" "$work/right" >"$work/differ" 2>&1
    count "$1" $? "$(cat "$work/differ"; wc -l <"$2"; wc -l <"$work/right")"
}

by_gtkwave() { # WHAT
    rm -f "$work/dump.fst" "$work/back"
    vcd2fst "$work/dump.vcd" "$work/dump.fst" >"$work/said" 2>&1
    count "vcd2fst takes $1" $? "$(cat "$work/said")"
    fst2vcd "$work/dump.fst" >"$work/back.vcd" 2>"$work/said"
    count "fst2vcd of $1" $? "$(cat "$work/said")"
    "$out/vcdsamples" dump <"$work/back.vcd" >"$work/back" 2>"$work/said"
    same "the values from GTKWave, $1" "$work/back"
}

by_sigrok() { # WHAT
    sigrok-cli -I vcd -i "$work/dump.vcd" -O csv 2>"$work/said" | grep '^[01],' >"$work/samples"
    same "the samples from sigrok, $1" "$work/samples"
}

readers() { # RECORDING FROM TO
    what="${1##*/} $2 to $3"
    dump "$@"
    "$out/vcdsamples" dump <"$work/dump.vcd" >"$work/samples" 2>"$work/said"
    same "the values of the dump, $what" "$work/samples"
    if needs gtkwave vcd2fst fst2vcd; then by_gtkwave "$what"; fi
    if needs sigrok-cli sigrok-cli; then by_sigrok "$what"; fi
}

readers "$root/samples/boot.rec" 0 4095
readers "$root/samples/breach.rec" 0 99999
readers "$root/samples/phases.rec" 1000 3133
readers "$root/samples/boot.rec" 2500 2500
"$out/makerec" boot 9000 >"$work/long.rec"
readers "$work/long.rec" 0 8999
echo "vcdreaders: $passed passed, $failed failed"
[ "$failed" -eq 0 ]
