# Sourced by ./test: what the transcripts need around them.

# Runs a command as a user who owns nothing here.
as_nobody() {
    if [ "$(id -u)" = 0 ]; then
        setpriv --reuid=65534 --regid=65534 --clear-groups --no-new-privs "$@"
    else
        "$@"
    fi
}

# Runs a command as one who cannot write to this folder; its owner could otherwise.
unwritable() {
    local status
    chmod a-w . target
    as_nobody "$@"
    status=$?
    chmod u+w . target
    return "$status"
}

# Runs a command on a path without the toolchain.
without_rt() {
    local folder path='' IFS=:
    for folder in $PATH; do
        [ -x "$folder/rt" ] || path=$path${path:+:}$folder
    done
    PATH=$path "$@"
}

# Runs a command in which the reads of the program of that name fail after so many bytes.
failing() { # BYTES NAME COMMAND...
    FAIL_READ_AFTER=$1 FAIL_READ_IN=$2 LD_PRELOAD=${failing_read:?} "${@:3}"
}

# Runs a command in which those calls of the program of that name fail; tests/failing_write.c has the words for them.
failing_call() { # CALLS NAME COMMAND...
    FAIL_CALL=$1 FAIL_CALL_IN=$2 LD_PRELOAD=${failing_write:?} "${@:3}"
}

# Runs a command that can write no byte to a file; what it says goes through pipes, since it may be kept in files.
roomless() {
    {
        (ulimit -f 0 && exec "$@") 2>&1 >&5 5>&- | cat >&2
        exit "${PIPESTATUS[0]}"
    } 5>&1 | cat
    return "${PIPESTATUS[0]}"
}

# Runs a command whose output nobody reads any more.
unread() {
    local reader
    exec 5> >(exec true)
    reader=$!
    wait "$reader"
    # Whoever runs the gate may ignore the signal.
    env --default-signal=PIPE "$@" >&5
}

# Files that the transcripts name, in scratch/.
make_scratch() {
    rm -rf scratch
    mkdir scratch
    head -c 33800 /dev/zero >scratch/long.pack
    head -c 24584 /dev/zero >scratch/long.cert
    cp examples/division.pack scratch/secret
    chmod 000 scratch/secret
    head -c 40000 /dev/zero | tr '\0' ' ' >scratch/long.trs
    printf '(RULES\n' >scratch/open.trs
    printf '(VAR x)\n(RULES f(x) -> f(x, x))\n' >scratch/two-arities.trs
    mkdir scratch/packs scratch/shut
    chmod 555 scratch/shut
    cp examples/loop.pack scratch/packs/old.pack
    cp examples/loop.pack scratch/packs/locked.pack
    chmod 444 scratch/packs/locked.pack
    ln -s old.pack scratch/packs/link.pack
    ln -s none.pack scratch/packs/loose.pack
    mkfifo scratch/packs/pipe.pack
    cp examples/division.pack 'scratch/a name.pack'
    cp examples/division.cert 'scratch/a name.cert'
    cp examples/loop.pack $'scratch/two\nlines.pack'
    cp examples/loop-weighted.cert $'scratch/two\nlines.cert'
    ln -s ../loader scratch/link
    ln -s link 'scratch/link of a link'
    mkdir scratch/bare
    ln -s "$(command -v bash)" "$(command -v dirname)" "$(command -v readlink)" "$(command -v nm)" scratch/bare
    make_thousand
}

# A thousand pairs of files in scratch/: twenty shops with the pairs of tests/shop.txt each, in which some files are missing, some may
# not be read, and folders stand in the place of some; and the list of all pairs.
make_thousand() {
    local shop folder
    mkdir scratch/thousand
    for shop in {1..20}; do
        folder="scratch/thousand/shop $shop"
        mkdir "$folder"
        cp examples/*.pack examples/*.cert "$folder"
        sed -n "s|^\([^; ]*\) \([^ ]*\)\$|$folder/\1\t$folder/\2|p" tests/shop.txt
    done >scratch/thousand.list
    rm "scratch/thousand/shop 3"/5.1.5*.pack "scratch/thousand/shop 12"/5.1.6*.cert
    chmod 000 "scratch/thousand/shop 7"/5.1.8*.pack "scratch/thousand/shop 15"/5.1.2*.cert
    rm "scratch/thousand/shop 18"/{loop.pack,cut.cert}
    mkdir "scratch/thousand/shop 18"/{loop.pack,cut.cert}
}

# Holds the lines of a run over a thousand that tell an answer to the table of the examples, and counts them.
as_expected() {
    paste scratch/thousand.list - | awk -F '\t' '
        NR == FNR { split($0, of, " "); due[of[1] "\t" of[2]] = of[3]; next }
        $3 != "" && $3 !~ / could not be read$/ {
            pack = $1; sub(/.*\//, "", pack)
            certificate = $2; sub(/.*\//, "", certificate)
            answer = due[pack "\t" certificate]
            line = $1 (answer == 0 ? " accepted" : " refused " answer)
            if (answer == "" || line != $3) { print "not as expected: " $3; wrong = 1 }
            held++
        }
        END { print held " as expected"; exit wrong }' examples/expected.txt -
}

export -f as_nobody unwritable without_rt failing failing_call roomless unread as_expected
