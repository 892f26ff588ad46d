# Plays transcripts: what is typed, and what is then seen. tests/tool/play.sh,
# tests/c/run and tests/readme source it, behind common.sh.
#
# | # A comment.
# | $ palette list - <log
# | what is printed on standard output
# | ! what is printed on standard error
# | [1]
#
# The last line is the exit status, left out if it is 0. A printed line that looks
# like a command or a comment has a backslash before it. Blank lines before a
# command, a comment or the end are for the reader. Each command is a test and
# starts in the same folder; the files that it leaves are there for the next.
# shellcheck shell=bash
need bash timeout diff od sed
export root=$PWD

# What a command does, as a transcript has it. One that doesn't end is ended.
seen() { # folder, command, scratch file
    local status
    (cd "$1" && timeout 60 bash -c "$2") >"$3.out" 2>"$3.err" </dev/null
    status=$?
    sed 's/^[$#] /\\&/' "$3.out"
    [ ! -s "$3.out" ] || [ -z "$(tail -c 1 "$3.out")" ] || printf '\n\\ no end of line\n'
    sed 's/^/! /' "$3.err"
    [ "$status" -eq 0 ] || echo "[$status]"
}

# Plays one command of a transcript.
play_command() { # name, folder, command, expected, scratch file
    local expected=$'\n'$4
    while [[ $expected == *$'\n\n' ]]; do
        expected=${expected%$'\n'}
    done
    printf '%s' "${expected#$'\n'}" >"$5.expected"
    seen "$2" "$3" "$5" >"$5.seen"
    if diff "$5.expected" "$5.seen" >"$5.diff"; then
        pass
    else
        fail "$1: $3 (<: expected, >: seen)"
        sed 's/^/  /' "$5.diff"
    fi
}

# Plays a transcript's commands in a folder.
play_transcript() { # name, file, folder, scratch file
    local line command='' expected='' commands=0
    while IFS= read -r line || [ -n "$line" ]; do
        case $line in
        '$ '* | '# '*)
            [ -z "$command" ] || play_command "$1" "$3" "$command" "$expected" "$4"
            command='' expected=''
            [[ $line == '# '* ]] || command=${line#'$ '} commands=$((commands + 1))
            ;;
        *) [ -z "$command" ] || expected+=$line$'\n' ;;
        esac
    done <"$2"
    [ -z "$command" ] || play_command "$1" "$3" "$command" "$expected" "$4"
    [ "$commands" -gt 0 ] || fail "$1: no command is played"
}

# --- what transcripts may use besides commands --------------------------------

# Bytes from hexadecimal digits, spaces ignored.
bytes() {
    local digits=$* escapes=
    digits=${digits// /}
    while [ -n "$digits" ]; do
        escapes+="\\x${digits:0:2}"
        digits=${digits:2}
    done
    printf "$escapes"
}

# The digits of standard input's bytes.
hexadecimal() {
    od -An -v -tx1 | tr -d ' \n'
    echo
}

# The longest snapshot of chip 1: every place holds 1.
full_snapshot() {
    local places place digits numbers= values=
    places=$(sed -n 's/^#define PALETTE_TLC34058_PLACES //p' "$root/include/palette.h")
    for ((place = 0; place < places; place++)); do
        printf -v digits '%02x%02x' $((place % 256)) $((place / 256))
        numbers+=$digits values+=01
    done
    printf -v digits '%02x%02x' "$((places % 256))" $((places / 256))
    bytes 01 "$digits" "$numbers" "$values"
}
export -f bytes hexadecimal full_snapshot
