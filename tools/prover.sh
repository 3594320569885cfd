# prover.sh: what build and test share, and read with '.': what is built of which sources, how rt is run, and how it is ended. They have set
# self, their own name, and stand in the root of the checkout. They call begin, then lock, then proves; one that leaves more behind than
# "$room" has a clear_up of its own.
room='' reader='' prover='' kept=''
C_LIBRARY=distantarm_c # its crate

# Of a program, or of the C library: the crates that it needs, the file that rt makes, where the other scripts find it, and the record of
# what that was made of.
know() { # NAME
    needed=$(sh tools/needs "$1") || return
    record=target/built/$1
    if [ "$1" = "$C_LIBRARY" ]; then
        made=crates/$1/out/lib$1.a built=target/staticlib/libdistantarm.a
    else
        made=crates/$1/out/$1 built=target/bin/$1
    fi
}
# The toolchain and every file that is proved. With what came of them it stands in the record of the last time: what is recorded need not
# be built again, and that is seen with no help of rt, in a moment and also where nothing can be written.
sources() {
    {
        rt version
        find crates.txt $(for crate in $needed; do echo "crates/$crate/src crates/$crate/specs crates/$crate/proofs"; done) \
            -type f -exec sha256sum {} + 2>/dev/null | LC_ALL=C sort
    } | sha256sum
}
state() { # SOURCES
    echo "$1"
    sha256sum "$built"
}
is_built() { # SOURCES
    [ -f "$built" ] && [ -f "$record" ] && [ "$(cat "$record")" = "$(state "$1")" ]
}
# Takes over what rt has made. Who runs the earlier one is not disturbed.
take() { # SOURCES
    mkdir -p "${built%/*}" target/built
    cp "$made" "$built.new"
    mv "$built.new" "$built"
    state "$1" >"$record"
}

# Two at a time would write the same files. The lock is on a file that is always there. rt holds it too, as long as it runs; who only tells
# of it does not.
lock() {
    exec 9<crates.txt
    flock -n 9 || { echo "$self: waits for another build or test" >&2 && flock 9; }
}
unlock() { exec 9<&-; }

clear_up() { rm -rf "$room"; }
# Ends rt and all that it started; what has not ended after half a second is not asked again.
end_prover() {
    kill "$prover" "-$prover" || :
    for look in 1 2 3 4 5; do
        kill -s 0 -- "-$prover" || return 0
        sleep 0.1
    done
    kill -s KILL -- "-$prover" || :
}
stop() { # SIGNAL
    trap '' HUP INT PIPE TERM
    [ -z "$reader" ] || kill "$reader" 2>/dev/null || :
    [ -z "$prover" ] || end_prover 2>/dev/null
    [ ! -p "$room/said" ] || : 3<>"$room/said" # for a tee that still waits for rt to open it
    wait 2>/dev/null || :
    echo "$self: stopped$kept" >&2 || :
    clear_up
    trap - EXIT "$1"
    kill -s "$1" $$
}
# Makes the temporary folder, which goes however the script ends.
begin() {
    room=$(mktemp -d 2>/dev/null) || { echo "$self: no temporary folder can be made" >&2; exit 2; }
    trap clear_up EXIT
    for signal in HUP INT PIPE TERM; do trap "stop $signal" "$signal"; done
}

# Keeps what rt says in the log, shows how far it is, and ends with its status. rt is a group of processes of its own, so that all of them
# can be ended. Its temporary folders are made in ours, which the user nobody has to pass through, since rt runs a program as nobody.
proves() { # LOG CRATE COMMAND WORDS..: the crate is empty where all are proved
    log=$1 crate=$2 status=0
    shift 2
    chmod 711 "$room"
    mkfifo "$room/said"
    tee "$log" <"$room/said" 9<&- | sh tools/progress ${crate:+"$crate"} 9<&- &
    reader=$!
    TMPDIR=$room setsid sh -c "$@" >"$room/said" 2>&1 </dev/null &
    prover=$!
    wait "$prover" || status=$?
    wait "$reader" || :
    reader='' prover=''
    return "$status"
}
