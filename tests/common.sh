# What the scripts of this folder and of tests/c share. They source it: it goes to
# the repository's root, counts what passed and what failed, and names a tool that
# is missing. Texts are bytes here, whatever the user's locale.
# shellcheck shell=bash
set -u
unset CDPATH
export LC_ALL=C
cd "$(dirname "${BASH_SOURCE[0]}")/.." || exit 2
passed=0
failed=0

pass() {
    passed=$((passed + 1))
}

fail() { # what
    printf 'FAILED %s\n' "$1"
    failed=$((failed + 1))
}

# The counts as the last line. Nothing counted is a failure.
verdict() {
    [ $((passed + failed)) -gt 0 ] || fail "nothing was checked"
    printf '%d passed, %d failed\n' "$passed" "$failed"
    [ "$failed" -eq 0 ]
}

# Ends the script if a command is missing; of a command with options the first
# word is looked for.
need() { # commands...
    local command missing=
    for command; do
        command=${command%% *}
        command -v "$command" >/dev/null && continue
        fail "the command $command is missing"
        missing=1
    done
    [ -z "$missing" ] || {
        verdict
        exit 1
    }
}

# The second model's tests, each as file::name.
model_tests() {
    awk 'FNR == 1 { file = FILENAME; sub(/.*\//, "", file); sub(/\.rs$/, "", file); marked = 0 }
         /^[ \t]*#\[test\]/ { marked = 1; next }
         marked && /^[ \t]*(pub )?fn / {
             sub(/^[ \t]*(pub )?fn /, ""); sub(/[^A-Za-z0-9_].*/, "")
             print file "::" $0
             marked = 0
         }' tests/model/tests/*.rs
}
