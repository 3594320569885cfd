# listing.sh: what mmurun, board and against share, and read with '.': a temporary folder, how they say what is wrong, and whether all was
# written that there was; and of the first two their arguments, their input and their program. They have set self, their own file, and
# parts, the folder of this one: tools/, or libexec/distantarm of a release, which has the programs too. mmurun and board call take, then
# print, and then look at "$room/in" and "$room/out".
name=${self##*/}
case $parts in */libexec/distantarm) release=yes ;; *) release='' ;; esac
MOST=65536 # bytes that the programs read

( : 3>&2 ) || exec 2>/dev/null
say() { echo "$name: $*" >&2; }
fail() { say "$@" && exit 1; }
decline() { say "$@" && exit 2; }
grouped() { # NUMBER: below a million, as 16,000
    if [ "$1" -lt 1000 ]; then echo "$1"; else printf '%d,%03d\n' $(($1 / 1000)) $(($1 % 1000)); fi
}

room=$(mktemp -d 2>/dev/null) || decline "no temporary folder can be made"
trap 'trap "" HUP INT PIPE TERM; rm -rf "$room"' EXIT
end_by() { # SIGNAL: ends as a program does that has no trap for it
    trap '' HUP INT PIPE TERM
    rm -rf "$room"
    trap - EXIT "$1"
    kill -s "$1" $$
    exit 1
}
for signal in HUP INT PIPE TERM; do trap "end_by $signal" "$signal"; done

explain() { sh "$parts/help" "$self" || exit; exit 0; } # by the opening comment of the caller

# Standard input becomes the file that is named.
take() { # TAKES WHAT ARGUMENTS..: what it takes, as the usage has it and in words
    takes=$1 what=$2
    shift 2
    case ${1-} in
    -h | --help) explain ;;
    --) shift ;;
    esac
    command="./distantarm $name"
    [ "$name" != mmurun ] || command="./distantarm run"
    [ -z "$release" ] || command=$name
    [ $# -le 1 ] || { echo "usage: $command [$takes | -]" >&2; exit 2; }
    if [ $# -eq 0 ] || [ "$1" = - ]; then return; fi
    [ -e "$1" ] || decline "there is no file '$1'"
    [ ! -d "$1" ] || decline "'$1' is a folder, not $what"
    [ -r "$1" ] || decline "the file '$1' cannot be read"
    exec <"$1"
}

# The C library of the program, where this machine is not x86-64: where the emulator looks for it, or where Debian's package has it.
LOADER=lib64/ld-linux-x86-64.so.2
has_library() {
    [ -z "${QEMU_LD_PREFIX:-}" ] && [ ! -e "/$LOADER" ] || return 0
    QEMU_LD_PREFIX=/usr/x86_64-linux-gnu
    export QEMU_LD_PREFIX
    [ -e "$QEMU_LD_PREFIX/$LOADER" ]
}
# Has the program ready: built, or in a release for this machine. A process that a signal can end has a shell of its own around it: so what
# sh says of that is left out.
prepare() { # PROGRAM
    emulator=''
    if [ -z "$release" ]; then
        { (exec sh "$parts/build" "$1" </dev/null 2>&4) || exit; } 4>&2 2>/dev/null
    elif [ "$(uname -m)" != x86_64 ]; then
        emulator=qemu-x86_64
        command -v "$emulator" >/dev/null 2>&1 && has_library ||
            decline "the program is for x86-64, and on this machine, $(uname -m), needs Debian's packages qemu-user and libc6-amd64-cross"
    fi
}
become() { # PROGRAM
    if [ -z "$release" ]; then exec sh "$parts/exec" "$1"; else exec ${emulator:+"$emulator"} "$parts/$1"; fi
}

# What the command reads of standard input, in a file.
keep_input() { # WHAT FILE COMMAND..
    input=$1 file=$2
    shift 2
    { why=$(LC_ALL=C "$@" 2>&1 >"$file") && return; } 2>/dev/null
    case $why in
    '' | *writ*) fail "$input could not be kept in a temporary file${why:+: ${why##*: }}" ;;
    *) fail "$input cannot be read: ${why##*: }" ;;
    esac
}
# All that the command prints, in "$room/out"; sets status to that with which it ended.
keep_output() { # WHAT COMMAND..
    output=$1
    shift
    { { ("$@" 2>&4) || echo $? >"$room/ended"; } | cat >"$room/out" ||
        fail "$output could not be written whole: it does not fit in a temporary file" 2>&4; } 4>&2 2>/dev/null
    status=0
    [ ! -f "$room/ended" ] || status=$(cat "$room/ended")
}
# Whether there is a standard output, and then "$room/out" to it.
can_write() { # WHAT
    ( : 3>&1 ) 2>/dev/null || fail "$1 could not be written, since standard output is closed"
}
write_output() { # WHAT
    wrote=0
    { cat "$room/out" 2>"$room/why" || wrote=$?; } 2>/dev/null
    [ "$wrote" -ne 0 ] || return 0
    [ "$wrote" -ne $((128 + 13)) ] || end_by PIPE # the reader has enough
    why=$(cat "$room/why")
    fail "$1 could not be written whole${why:+: ${why##*: }}"
}
# Prints what the program prints of standard input. The one is then in "$room/out", the other in "$room/in".
print() { # PROGRAM
    can_write "the listing"
    ( : 3<&0 ) 2>/dev/null || exec </dev/null
    prepare "$1"
    [ ! -t 0 ] || say "reads $what from the terminal; Ctrl-D ends it"
    # One byte more than the program reads, by which a longer input is known.
    keep_input "the input" "$room/in" head -c $((MOST + 1))
    keep_output "the listing" become "$1" <"$room/in"
    case $status in
    0) ;;
    2) exit 2 ;; # exec has said why
    *) fail "the program ended with status $status" ;;
    esac
    write_output "the listing"
}
