# What ./list and ./explain share: a program of target/bin is run on a recording; its output passes by, its messages become a status.
# It is sourced with $self, the command's own file, so that --help prints that file's first lines and each message begins with its name.

command=${self##*/} top=${self%/*}

# stop STATUS WHY
stop() {
    printf '%s: %s\n' "$command" "$2" >&2
    exit "$1"
}

# check [FILE]: stops if there is no recording to read, or nowhere to write.
check() {
    usage="usage: ./$command FILE, or ./$command < FILE"
    [ $# -le 1 ] || stop 2 "too many files; $usage"
    # A descriptor that is closed would be taken by the next file opened.
    { true 3>&1; } 2>/dev/null || stop 1 "standard output: Bad file descriptor"
    if [ $# -eq 1 ]; then
        [ -e "$1" ] || stop 1 "$1: No such file or directory"
        [ -r "$1" ] || stop 1 "$1: Permission denied"
        [ ! -d "$1" ] || stop 1 "$1: Is a directory"
    else
        { true 3<&0; } 2>/dev/null || stop 1 "standard input: Bad file descriptor"
        [ ! -t 0 ] || stop 2 "no recording; $usage"
    fi
}

# run PROGRAM: its messages and its status, while its output passes by as descriptor 3.
status='' said=''
run() {
    said=$("$top/target/bin/$1" 2>&1 >&3 3>&-)
    status=$?
}

# tell PROGRAM HINT [FILE]: what the program said, with the hint where the recording is too long, and the status to end in.
tell() {
    case $#,$said in 3,'standard input: '*) said="$3: ${said#standard input: }" ;; esac
    [ -z "$said" ] || printf '%s\n' "$said" | sed "s/^/$command: /" >&2
    case $said in *'too long: '*) printf '%s: %s\n' "$command" "$2" >&2 ;; esac
    # A program ends in 0 whatever it met, or in 141 where whoever reads its output has gone: what it says is a failure, but that there is
    # no record.
    failure=$(printf '%s\n' "$said" | grep -v '^no record found')
    case $status in
        0) [ -z "$failure" ] ;;
        141) exit 141 ;;
        *) stop 1 "the $1 ended in status $status" ;;
    esac
}

# on_recording PROGRAM HINT [FILE]: builds the program if it isn't current, and runs it.
on_recording() {
    program=$1 hint=$2
    shift 2
    case $#,${1-} in 1,-h | 1,--help) sed -n '2,/^$/s/^# //p' "$self" || exit 1; exit ;; esac
    check "$@"
    "$top/build" "$program" || exit
    if [ $# -eq 1 ]; then
        # The shell's own message would be another one.
        { run "$program" <"$1" 3>&1; } 2>/dev/null
        [ -n "$status" ] || stop 1 "$1: can't be opened"
    else
        run "$program" 3>&1
    fi
    tell "$program" "$hint" "$@"
}
