# What the scripts seeded-* share; they source it. Each seeds one bug at a time
# into a copy and requires that it is caught. With
# --check as first word they only look at what they would seed: nothing is
# compiled or run.
#
# One line for each bug, its name and behind the bar what catches it; then
# 'N passed, M failed'.
# shellcheck shell=bash
. "$(dirname "${BASH_SOURCE[0]}")/common.sh"
need awk grep sed sh
checking=
[ "${1-}" != --check ] || checking=1
seeded_bugs=0
work=$(mktemp -d) || exit 2
trap 'rm -rf "$work"' EXIT

caught() { # name, by what
    printf 'caught      %s | %s\n' "$1" "$2"
    seeded_bugs=$((seeded_bugs + 1))
    pass
}

# With --check: all that the bug rests on is there.
fits() { # name, what would catch it
    printf 'fits        %s | %s\n' "$1" "$2"
    seeded_bugs=$((seeded_bugs + 1))
    pass
}

passes() { # name
    printf 'passes      %s\n' "$1"
    pass
}

not_caught() { # name, why
    printf 'NOT CAUGHT  %s: %s\n' "$1" "$2"
    failed=$((failed + 1))
}

# The unchanged copy fails, or can't be built: then what is caught says nothing.
give_up() { # why, a file with what was said
    [ ! -f "${2-}" ] || tail -n 20 "$2"
    not_caught "without a bug" "$1"
    verdict
    exit 1
}

# The last line of all. No bug at all is a failure.
all_seeded() {
    [ $((seeded_bugs + failed)) -gt 0 ] || fail "no bug is listed"
    verdict
}

# Puts a text in place of another, which must stand in the file exactly once and
# differ from it. Sets `fault` if it can't.
substitute() { # file, result, old, new
    fault=
    [ -f "$1" ] || { fault="there is no file ${1#"$work"/}" && return 1; }
    OLD=$3 NEW=$4 awk '
        { text = text $0 "\n" }
        END {
            old = ENVIRON["OLD"]; new = ENVIRON["NEW"]
            if (old == new) exit 5
            at = old == "" ? 0 : index(text, old)
            if (!at) exit 3
            rest = substr(text, at + length(old))
            if (index(rest, old)) exit 4
            printf "%s%s%s", substr(text, 1, at - 1), new, rest
        }' "$1" >"$work/substituted"
    case $? in
    0) mv "$work/substituted" "$2" && return ;;
    3) fault="the text to replace isn't in ${1##*/}" ;;
    4) fault="the text to replace is in ${1##*/} more than once" ;;
    5) fault="the text is replaced by itself" ;;
    *) fault="awk failed" ;;
    esac
    return 1
}
