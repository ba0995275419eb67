#!/bin/sh
# Wrong builds that stand side by side in one must-fail edit, each in a function of its own: that the prover refuses each of them.
#   tests/wrongbuilds.sh ROOT [CRATE..]
# How, is told in wrongbuilds.py. The last line is 'wrongbuilds: N passed, M failed'.
set -u
exec python3 "$(dirname "$0")/wrongbuilds.py" "$@"
