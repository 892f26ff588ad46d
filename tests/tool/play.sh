# Plays the transcripts of tests/tool/transcripts with a build of the tool. tests/tool/run
# and tests/seeded-tool source it, behind common.sh; they set `work`, a folder of
# their own.
# shellcheck shell=bash
. tests/transcript.sh
unset NO_COLOR COLORTERM
export TERM=dumb
umask 022

# The programs that transcripts use, for $work/bin.
build_helpers() {
    local program
    # A user who isn't root enters the folder, too.
    chmod 755 "$work" && mkdir "$work/bin" || return
    for program in terminal nobody; do
        # shellcheck disable=SC2086 # CC may hold options
        ${CC:-cc} -std=c11 -Wall -Wextra -pedantic -Werror -O1 "tests/tool/$program.c" -o "$work/bin/$program" ||
            return
    done
}

# One transcript in a folder of its own, which has the examples.
play() { # name of the build, transcript, folder of the build
    rm -rf "$work/here"
    mkdir "$work/here"
    ln -s "$root/examples" "$work/here/examples"
    PATH=$3:$work/bin:$PATH play_transcript "$1, $(basename "$2" .txt)" "$2" "$work/here" "$work/scratch"
}

# --- what the transcripts use besides -------------------------------------------

# The squares of a picture's pixels that aren't black, 16 to a row: row, column,
# colour. A square of two colours is said to be uneven.
squares() { # pixels on a side
    od -An -v -tx1 | awk -v side="$1" '
        { for (i = 1; i <= NF; i++) {
            colour = colour $i
            if (++components < 3) continue
            square = int(pixel / (16 * side * side)) " " int(pixel % (16 * side) / side)
            if (!(square in colours)) { colours[square] = colour; order[++squares] = square }
            else if (colours[square] != colour) colours[square] = "uneven"
            colour = ""; components = 0; pixel++
        } }
        END { for (i = 1; i <= squares; i++)
            if (colours[order[i]] != "000000") print order[i], "#" colours[order[i]] }'
}

# A wanted table: black, but for the entries that are named.
table() { # entry, its colour, another entry, its colour, ...
    local entry colours=()
    for ((entry = 0; entry < 256; entry++)); do
        colours+=(000000)
    done
    while [ $# -gt 0 ]; do
        colours[$1]=$2
        shift 2
    done
    bytes "${colours[*]}"
}

# A command whose standard output is a pipe that nobody reads from any more, and
# its status.
into_closed_pipe() { # command...
    mkfifo closed.pipe
    { cat closed.pipe >/dev/null && "$@"; echo "status $?" >&2; } | { exec <&- && echo >closed.pipe; }
    rm closed.pipe
}
export -f squares table into_closed_pipe
