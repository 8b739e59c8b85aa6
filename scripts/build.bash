# Sourced by ./loader, ./list_pairs, ./library and ./bench, which set `here`, the repository, and `die`, an error's end.
# The toolchain alone says what is proved and built; it is asked again as soon as anything differs from its last verdict.

# No pipe shall take the number of a standard descriptor that is closed; what stands in for input cannot be read.
{ : 9>&2; } || exec 2>/dev/null
{ : 9<&0; } 2>/dev/null || exec 0>/dev/null
{ : 9>&1; } 2>/dev/null || die "standard output is closed"

# One number for all that the toolchain judges; the must-fail edits are the gate's, and out/ is the toolchain's own.
sources() {
    (
        set -o pipefail
        cd "${here:?}" && find crates crates.txt \( -name must-fail -o -regex 'crates/[^/]*/out' \) -prune -o -type f -print0 |
            LC_ALL=C sort -z | xargs -0 sha256sum | sha256sum
    )
}

# Without a toolchain, the one that the product was built with.
toolchain() {
    if command -v rt >/dev/null; then rt version; else sed -n 1p "$1" 2>/dev/null; fi
}

# What a product was made of and is; a verdict is a file that holds it.
state() { # PRODUCT VERDICT
    toolchain "$2" && sources && sha256sum <"$1"
}

is_fresh() { # PRODUCT VERDICT
    local now
    [ -f "$1" ] && [ -f "$2" ] && now=$(state "$1" "$2") && [ "$now" = "$(cat "$2")" ]
}

# Asks the toolchain in a crate's folder, its progress on standard error line by line; what it said is shown where it refuses.
ask_toolchain() { # CRATE WORD...
    local log verdict
    log=$(mktemp) || die "no room for a log"
    trap 'rm -f "$log"' EXIT
    (cd "$here/crates/$1" && exec rt "${@:2}") 2>&1 | tee "$log" | sed -u -n '/^rt: running /d; /^rt: /p' >&2
    verdict=${PIPESTATUS[0]}
    [ "$verdict" -eq 0 ] || grep -v '^rt: ' "$log" | tail -n 40 >&2
    rm -f "$log"
    trap - EXIT
    return "$verdict"
}

# Makes PRODUCT, a copy of what `rt WORD...` makes in the crate's folder out/, unless it is fresh.
# One at a time: the lock is the repository's folder itself.
build() { # CRATE MADE PRODUCT WORD...
    local crate=$1 made=$here/crates/$1/out/$2 product=$here/$3 verdict=$here/target/built/$1 before
    shift 3
    ! is_fresh "$product" "$verdict" || return 0
    command -v rt >/dev/null || die "not built yet, and rt, the Rattle kit's command, is not on the path"
    command -v flock >/dev/null || die "flock, of util-linux, is not on the path"
    exec 9<"$here" || die "$here cannot be read"
    flock -n 9 || { echo "waiting for another build in $here" >&2 && flock 9; } || die "no lock on $here"
    if ! is_fresh "$product" "$verdict"; then
        mkdir -p "$here/target/built" "${product%/*}" 2>/dev/null
        [ -w "$here/target/built" ] || die "not built yet, and $here cannot be written to"
        rm -f "$verdict" "$product" "$made"
        echo "proving and building $crate, minutes at the first use" >&2
        before=$(sources) || die "the sources cannot be read"
        ask_toolchain "$crate" "$@" || die "not built: the toolchain refused it"
        [ -f "$made" ] || die "not built: the toolchain made no $made"
        [ "$(sources)" = "$before" ] || die "not built: the sources changed meanwhile"
        cp "$made" "$product" || die "$product cannot be written"
        state "$product" "$verdict" >"$verdict.new" || die "$verdict cannot be written"
        mv "$verdict.new" "$verdict" || die "$verdict cannot be written"
    fi
    exec 9<&-
}

program=target/bin/loader
pairs_program=target/bin/list_pairs
library=target/staticlib/libteldyzhom.a
# `rt run` also runs what it built, once, on an input of its own: the caller's is for his question.
build_program() {
    build loader loader "$program" run -- check ../../examples/division.{pack,cert} </dev/null
}
build_pairs_program() {
    build list_pairs list_pairs "$pairs_program" run <"$here/examples/division.pack"
}
build_library() {
    build teldyzhom_c libteldyzhom_c.a "$library" lib </dev/null
}
