# common.sh: what the scripts of this repository share. A bash script reads it from the top folder: . tools/common.sh
# All that is said here goes to standard error, so that standard output is the script's own.

# The kit that the proofs were last checked with. Another one may do; `rt version` says which is at hand.
KIT="rattle-kit-13f logic dac8208d650f15bf"

say() { echo "$*" >&2; }
fail() { say "${0##*/}: $*"; exit 1; }

# need COMMAND PACKAGE: ends with a sentence where the command is not there
need() { command -v "$1" >/dev/null || fail "the command \`$1\` is missing. On Debian: apt-get install $2"; }

# sets `kit`, the kit's folder, and `tools`, that of its compiler
find_kit() {
    command -v rt >/dev/null || fail "the Rattle kit is missing: there is no command \`rt\`. Put the folder bin of" \
        "$KIT on the path: export PATH=KIT/bin:\$PATH"
    kit=$(cd "$(dirname "$(readlink -f "$(command -v rt)")")/.." && pwd -P)
    tools=$kit/toolchain
    [ -x "$tools/bin/clang" ] || fail "the kit at $kit has no compiler"
}

# kept NAME CRATE COMMAND...: runs the command in the crate's folder with all that it says kept in target/log/NAME. Shows
# each crate as it is proved, and every 20 seconds that it is still at work. Where it fails its last lines are shown and the
# file is named.
kept() {
    local log=target/log/$1 crate=$2 ticker
    shift 2
    mkdir -p target/log
    ticking &
    ticker=$!
    { (cd "crates/$crate" && "$@") 2>&1 </dev/null || echo "status $?"; } | tee "$log" | { proved || true; } >&2
    kill "$ticker"
    wait "$ticker" || true
    if [[ $(tail -n 1 "$log") == "status "* ]]; then
        tail -n 20 "$log" >&2
        fail "failed in crates/$crate: $*. All that it said is in $log"
    fi
}
# of what rt says, the name of each crate that was proved, and how many functions it has
proved() {
    sed -un -e '/^crate \([^:]*\): .*/ { s//\1/; h }' \
        -e '/^logic=proved functions=\([0-9]*\) .*/ { s//proved (\1 functions)/; G; s/\(.*\)\n\(.*\)/\2: \1/; p }'
}
ticking() {
    local nap seconds
    trap 'kill "$nap"; exit' TERM
    for ((seconds = 20; ; seconds += 20)); do
        sleep 20 &
        nap=$!
        wait "$nap"
        kill -0 $$ || exit # the script was ended
        say "  at work for $seconds seconds"
    done
}

# built NAME: proves and builds the program NAME where that is not done yet. It stays as crates/NAME/out/NAME. `rt run`, which
# makes it, also runs it, here with nothing to read.
built() { kept "$1" "$1" rt run; }
