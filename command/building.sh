# shellcheck shell=sh
# Building and starting a proved program; read by ./spur, which has root and die.
: "${root:?}"

# The toolchain's folder: its loader and C library run a proved program.
toolchain() {
    command -v rt >/dev/null 2>&1 || die "rt, the Rattle toolchain's command, is not on the PATH"
    tools=$(dirname "$(rt doc </dev/null)")/toolchain # it reads nothing, and fails where its input is a folder
}

# The words in front of a proved program's path.
runner() {
    printf '%s --library-path %s' "$tools/lib/ld-linux-x86-64.so.2" "$tools/lib"
}

# The crates that one stands on, and itself, in the order of proving: those of a line need none of the same line.
levels() { # CRATE
    awk -F: -v crate="$1" '
        function level(c, names, n, i, least) {
            if (c in known) return known[c]
            n = split(under[c], names, " ")
            least = 0
            for (i = 1; i <= n; i++)
                if (names[i] in under && level(names[i]) >= least) least = known[names[i]] + 1
            row[least] = row[least] " " c
            return known[c] = least
        }
        !/^#/ && NF { under[$1] = $2 }
        END { for (i = 0; i <= level(crate); i++) print substr(row[i], 2) }' "$root/crates.txt"
}

# Proves a program's crates and makes it. rt works on one crate, in its folder, and builds a library for those above it or, when it has proved and
# linked a program, runs that too: here over an empty input, so that what it says is left in the log. That can take minutes, so what is proved is
# told level by level.
build() { # NAME
    log=$root/target/$1.log began=$root/target/$1.began
    { mkdir -p "$root/target/bin" && true >"$log" && true >"$began"; } 2>/dev/null || die "$root/target can't be written"
    printf 'spur: building %s, with its proofs\n' "$1" >&2
    levels "$1" | while read -r crates; do
        printf 'spur: proving %s\n' "$crates" >&2
        for crate in $crates; do
            if [ "$crate" = "$1" ]; then verb=run; else verb=lib; fi
            (cd "$root/crates/$crate" && rt "$verb") </dev/null 3<&- >>"$log" 2>&1 || exit 1
        done
    done
    # shellcheck disable=SC2181
    if [ $? -ne 0 ] || ! cp "$root/crates/$1/out/$1" "$root/target/bin/$1" 2>>"$log"; then
        tail -n 20 "$log" >&2
        die "$1 could not be built"
    fi
    # As old as the building's begin: what changed since then is newer.
    touch -r "$began" "$root/target/bin/$1" 2>/dev/null
    rm -f "$began"
}

# Builds a program on first use, proofs and all, and again when a file of the crates has changed since; what rt made, in the folders out, is none.
built() { # NAME
    toolchain
    program=$root/target/bin/$1
    if [ ! -x "$program" ] || [ -n "$(find "$root/crates" "$root/crates.txt" -name out -prune -o -type f -newer "$program" -print | head -n 1)" ]; then
        build "$1"
    fi
}
