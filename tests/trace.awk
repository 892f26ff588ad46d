# The judge of tests/trace: reads what is known (sort, name and part, between
# tabs), then the document. Says 'passed', the form and the name; 'failed' and
# what is wrong; and of what the script is to look for in files 'path' or 'code',
# the line and the text.
BEGIN {
    FS = "\t"
    n = split(words, list, " ")
    for (i = 1; i <= n; i++) plain[list[i]] = 1
    places = "(crates|tests|docs|include|examples|scripts|bench)/"
    part = "[A-Za-z0-9_-]+"
    more = "(, | and |, and )"
    owners = " of `[^`]+`( and `[^`]+`)*"
}

NR == FNR {
    known[$1, $2] = 1
    if (NF == 3) known[$1, $2, $3] = 1
    if ($1 == "sequence" || $1 == "class") titles[$1, ++title_count[$1]] = $2
    if ($1 == "edit") edits[++edit_count] = $2
    if ($1 == "type") gives[$2] = $3
    next
}

{
    line = $0
    take_parts("fields? `[^`]+`(" more "`[^`]+`)*" owners, "field")
    take_parts("clauses? " part "(" more part ")*" owners, "clause")
    take_lists()
    take_structs()
    take_titles("S", "sequence")
    take_titles("C", "class")
    take_backquoted()
    take_paths()
}

END {
    for (i = 1; i <= edit_count; i++)
        if (!(edits[i] in named)) print "failed\tthe edit " edits[i] " is not named"
}

function passed(form, name) {
    if (!seen[form, name]++) print "passed\t" form "\t" name
}

function wrong(what) {
    if (!told[what]++) print "failed\tline " FNR ": " what
}

function check(form, name, there) {
    if (there) passed(form, name)
    else wrong("there is no " form " " name)
}

# A backquoted text: a name in one of the forms of the document's table, a path, a
# piece of code, or the last part of a name.
function name_of(text) {
    if (text in plain) return
    if (text ~ "^" places) look_for("path", text)
    else if (text ~ /^[a-z0-9_]+\.rs$/) look_for("path", "tests/model/tests/" text)
    else if (text ~ /^[a-z0-9_]+\/must-fail\/[A-Za-z0-9_-]+$/) {
        named[text] = 1
        check("edit", text, ("edit", text) in known)
    }
    else if (text ~ /^[a-z0-9_]+\/proofs\/([A-Za-z0-9_]+\/)*[A-Za-z0-9_]+\.[^ .\/]+$/) check("law", text, ("name", text) in known)
    else if (text ~ /^[a-z0-9_]+\/([A-Za-z0-9_]+\/)*[A-Z][A-Za-z0-9_]*\.[^ .\/]+$/) check("definition", text, ("name", text) in known)
    else if (text ~ /^[a-z0-9_]+(::[A-Za-z0-9_]+)+$/) function_or_test(text)
    else if (text ~ /[ &=({[]/) look_for("code", text)
    else if (text ~ /^[^\/:.]+$/) check("word", text, ("word", text) in known)
    else wrong("`" text "` is a name of no known form")
}

function function_or_test(text,    first) {
    first = text
    sub(/::.*/, "", first)
    if (("test", text) in known) passed("test", text)
    else if (("crate", first) in known) check("function", text, ("function", text) in known)
    else check("test", text, 0)
}

function look_for(form, text) {
    if (!seen[form, text]++) print form "\t" FNR "\t" text
}

# Does the record have the field, or what the definition gives, or does it set it?
function has_field(owner, field,    record) {
    record = owner
    sub(/\.[^.]*$/, "", record)
    record = record "." gives[owner]
    return ("field", owner, field) in known || ("field", record, field) in known || ("set", owner, field) in known
}

# "fields `a` and `b` of `x/Y.z` and `v/W.u`", "clauses a and b of ..": every part
# of every owner.
function parts_of(phrase, form,    at, left, right, parts, whole, m, n, i, j) {
    at = index(phrase, " of `")
    left = substr(phrase, 1, at - 1)
    right = substr(phrase, at + 4)
    sub(/^[a-z]+ /, "", left)
    gsub(/`/, "", left)
    gsub(/`/, "", right)
    m = split(left, parts, more)
    n = split(right, whole, " and ")
    for (i = 1; i <= m; i++)
        for (j = 1; j <= n; j++)
            check(form, parts[i] " of " whole[j], form == "field" ? has_field(whole[j], parts[i]) : ("clause", whole[j], parts[i]) in known)
}

# Takes such phrases out of the line; their owners stay, to be judged as names.
function take_parts(pattern, form,    phrase, before) {
    before = ""
    while (match(line, pattern)) {
        phrase = substr(line, RSTART, RLENGTH)
        before = before substr(line, 1, RSTART - 1) substr(phrase, index(phrase, " of `"))
        line = substr(line, RSTART + RLENGTH)
        parts_of(phrase, form)
    }
    line = before line
}

# "`x/Y.z` (a, b)": two or more fields in brackets.
function take_lists(    rest, phrase, at, parts, n, i) {
    rest = line
    while (match(rest, "`[a-z0-9_]+/[^` ]+` [(]" part "(, " part ")+[)]")) {
        phrase = substr(rest, RSTART + 1, RLENGTH - 2)
        rest = substr(rest, RSTART + RLENGTH)
        at = index(phrase, "` (")
        n = split(substr(phrase, at + 3), parts, ", ")
        phrase = substr(phrase, 1, at - 1)
        for (i = 1; i <= n; i++) check("field", parts[i] " of " phrase, has_field(phrase, parts[i]))
    }
}

# "structs A and B in crates/..", and so for enums, traits, constants and statics: the
# path stays.
function take_structs(    phrase, at, file, parts, n, i) {
    while (match(line, "(struct|enum|trait|constant|static)s? " part "(" more part ")* in crates/[A-Za-z0-9_./-]*[A-Za-z0-9_]")) {
        phrase = substr(line, RSTART, RLENGTH)
        at = index(phrase, " in ")
        line = substr(line, 1, RSTART - 1) substr(line, RSTART + at + 3)
        file = substr(phrase, at + 4)
        phrase = substr(phrase, 1, at - 1)
        sub(/^[a-z]+ /, "", phrase)
        n = split(phrase, parts, more)
        for (i = 1; i <= n; i++) check("struct", parts[i] " in " file, ("struct", file, parts[i]) in known)
    }
}

# S "text", C "text": the name of some sequence, of some class starts so, in whole
# words.
function take_titles(letter, form,    name) {
    while (match(line, letter " \"[^\"]*\"")) {
        name = substr(line, RSTART + 3, RLENGTH - 4)
        line = substr(line, 1, RSTART - 1) substr(line, RSTART + RLENGTH)
        check(form, "\"" name "\"", name != "" && starts_some(form, name))
    }
}

function starts_some(form, name,    i, title) {
    for (i = 1; i <= title_count[form]; i++) {
        title = titles[form, i]
        if (index(title, name) == 1 && substr(title, length(name) + 1, 1) !~ /[A-Za-z0-9]/) return 1
    }
    return 0
}

function take_backquoted() {
    while (match(line, /`[^`]*`/)) {
        name_of(substr(line, RSTART + 1, RLENGTH - 2))
        line = substr(line, 1, RSTART - 1) " " substr(line, RSTART + RLENGTH)
    }
    if (line ~ /`/) wrong("a backquote is left open")
}

# Files and folders named without backquotes.
function take_paths(    path) {
    while (match(line, places "[A-Za-z0-9_*./-]*[A-Za-z0-9_*/]|[a-z0-9_]+\\.rs")) {
        path = substr(line, RSTART, RLENGTH)
        line = substr(line, 1, RSTART - 1) " " substr(line, RSTART + RLENGTH)
        look_for("path", path ~ /\// ? path : "tests/model/tests/" path)
    }
}
