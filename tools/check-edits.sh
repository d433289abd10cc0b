#!/bin/sh
# Checks that the wrong programs of crates/NAME/must-fail/*.edit are refused for their own sake. An edit file holds one or more, each as
#   wrong: NAME        its name, once in the crate
#   fn: FUNCTION       the function whose proof falls by itself, as a check has it; the crate's name may be left out
#   law: NAME          in place of fn: or beside it: the definition, law or theorem that falls by itself; NAME.FIELD where it is a record, in
#                      whose proof the line of that field falls, so that several fields of it may be wrong in one file
#   errors: N          where it has several pairs, each of which is to be refused: how many errors of that function or law the log has
#   file:, old:, new:  its edits, one pair or more
# `rt ci` applies all the pairs of a file together, and asks only that the crate as a whole is refused. It keeps no log of an edit, and says where
# the first of the errors stands. Two ways:
#   check-edits.sh              after `rt ci`, in the gate: by build/ci.log each file was refused, by the prover's verdict and no limit of it, at
#                               some place of the code or the proofs, and not only since a proof names what the edit took away
#   check-edits.sh each NAME..  after tools/try-edits.sh, by hand: by the logs in build/must-fail each wrong program of these crates was refused
#                               by itself
# Prints each fault and ends with 1, or prints how many wrong programs there are; in the gate also in how many files the first error is one that a
# wrong program of theirs names. Where it is not, something else falls before them, and only the second way shows that they fall too.
set -u
cd "$(dirname "$0")/.." || exit 1
export LC_ALL=C

each=
if [ "${1:-}" = each ]; then
    each=1
    shift
fi
[ $# -gt 0 ] || set -- '*'
edits=$(for name; do ls crates/$name/must-fail/*.edit 2>/dev/null; done)
[ -n "$edits" ] || { echo 'edits: there are none in crates/*/must-fail' && exit 1; }
if [ -z "$each" ] && [ ! -f build/ci.log ]; then
    echo 'edits: there is no build/ci.log: run `make prove` first'
    exit 1
fi

# The names of crates and edits have no blanks.
awk -v each="$each" '
function fault(of, text) {
    print edit ": " (of == "" ? "" : of ": ") text
    faults++
}

# the value of a line `word: value`
function value(   text) {
    text = $0
    sub(/^[a-z]+:[ \t]*/, "", text)
    sub(/[ \t\r]+$/, "", text)
    return text
}

function begin_file(   parts) {
    edit = FILENAME
    split(edit, parts, "/")
    crate = parts[2]
    label = parts[4]
    sub(/\.edit$/, "", label)
    wrong = old = ""
    programs = carriers = named = pairs = early = 0
}

function begin_program() {
    end_program()
    wrong = value()
    if (wrong == "") fault("", "line " FNR ": a wrong: without a name")
    if ((crate, wrong) in seen) fault(wrong, "this name stands in " seen[crate, wrong] " too")
    seen[crate, wrong] = edit
    programs++
    total++
    named = pairs = 0
}

function end_program() {
    if (!programs) return
    if (!named) fault(wrong, "it has no fn: and no law: line")
    if (!pairs) fault(wrong, "it has no old: and new: pair")
}

function carrier(word) {
    if (!programs) { early = FNR; return }
    carriers++
    named++
    kind[carriers] = word
    name[carriers] = word == "fn" ? whole(value()) : value()
    by[carriers] = wrong
    wanted[carriers] = 0
}

# a function with its crate, as the check names it
function whole(what) { return index(what, crate "::") == 1 ? what : crate "::" what }

# how many errors the carrier just named is to have
function errors() {
    if (!named || value() !~ /^[1-9][0-9]*$/) fault(wrong, "line " FNR ": errors: wants a number and a fn: or law: before it")
    else wanted[carriers] = value()
}

function pair() {
    if (!programs) early = FNR
    if (old != "") pairs++
    old = ""
}

function end_file(   k) {
    if (edit == "") return
    end_program()
    if (early) fault("", "line " early " belongs to no wrong: line")
    else if (!programs) fault("", "it has no wrong: line")
    split("", fallen)
    split("", unfit)
    split("", verdict)
    for (k = 1; k <= carriers; k++) check_alone(k)
    if (!each) check_told()
    else if (read_log()) for (k = 1; k <= carriers; k++) check_carrier(k)
}

# each function or law in one program of a file alone: who else fell could not be told
function check_alone(k,   j) {
    for (j = 1; j < k; j++) if (kind[j] == kind[k] && name[j] == name[k] && by[j] != by[k]) {
        fault(by[k], kind[k] " " name[k] " is named by " by[j] " as well: give each a file of its own")
        return
    }
}

# What `rt ci` said of each file: CRATE/LABEL.edit, what it came to, and where the first error stands.
function read_told(   line, at, of) {
    while ((getline line < "build/ci.log") > 0) {
        if (line !~ /^rt: must-fail [^ ]+\.edit: /) continue
        sub(/^rt: must-fail /, "", line)
        at = index(line, ": ")
        of = substr(line, 1, at - 1)
        told[of] = substr(line, at + 2)
    }
    close("build/ci.log")
}

function check_told(   text, k) {
    if (!((crate "/" label ".edit") in told)) { fault("", "build/ci.log says nothing of it"); return }
    text = told[crate "/" label ".edit"]
    if (text !~ /^refused, as it must be/) { fault("", "it was not refused: " text); return }
    if (text ~ /^refused, as it must be \(only because/) { fault("", "it is refused only since a proof names what the edit took away, which shows nothing of the program"); return }
    if (text ~ /^refused, as it must be \(only by a limit/) { fault("", "it is refused only by a limit of the prover, which gave no verdict"); return }
    if (!sub(/^refused, as it must be: /, "", text)) { fault("", "rt ci does not say where the error stands: " text); return }
    files++
    read_entry(text)
    for (k = 1; k <= carriers; k++) if ((kind[k], name[k]) in fallen) { own++; return }
}

# An entry of a log begins at the start of a line, and its further lines are set in.
function read_log(   line, entry, got, last, file) {
    file = "build/must-fail/" crate "/" label ".log"
    while ((got = (getline line < file)) > 0) {
        if (line ~ /^[ \t]/) { entry = entry " " line; continue }
        if (line != "") last = line
        read_entry(entry)
        entry = line
    }
    close(file)
    read_entry(entry)
    if (got) { fault("", "there is no " file ": run tools/try-edits.sh " crate); return 0 }
    if (last !~ /^logic=not-proved/) { fault("", "its check ended in: " last); return 0 }
    return 1
}

# Notes what fell, by itself, and where a text of a proof is unfit.
function read_entry(entry,   at, place, law, field) {
    if (entry ~ /^fn [^ ]+: /) {
        sub(/^fn /, "", entry)
        at = index(entry, ": ")
        verdict[substr(entry, 1, at - 1)] = substr(entry, at + 2)
        return
    }
    sub(/^note: /, "", entry)
    if (entry !~ /^[^ ]+:[0-9]+:[0-9]+: /) return
    at = index(entry, ": ")
    place = substr(entry, 1, at - 1)
    entry = substr(entry, at + 2)
    sub(/^\.\//, "", place)
    if (place ~ /^src\//) {
        if (entry ~ /it is not proved that/) fallen["fn", function_at(place)]++
        return
    }
    if (!sub(/^error: /, "", entry)) return
    field = field_at(place)
    sub(/:[0-9]+:[0-9]+$/, "", place)
    if (unfit_error(entry)) { unfit[place] = 1; return }
    if (entry !~ /^`[^`]+`/ || entry ~ /was not admitted/) return
    law = substr(entry, 2)
    law = substr(law, 1, index(law, "`") - 1)
    fallen["law", law]++
    where["law", law] = where["law", law] " " place
    if (field != "") { fallen["law", law "." field]++; where["law", law "." field] = place }
    if (place ~ /\/(Answers|Invariants)\.antt$/) fallen["fn", function_of(place)]++
}

# an error of the proof text alone: it names what the edited code or definition does not have
function unfit_error(entry) { return entry ~ /has no field|is not in scope|has no `|that +can +be +named +from +here/ }

# the function whose proof is a file proofs/F/Answers.antt
function function_of(place) {
    sub(/^proofs\//, "", place)
    sub(/\/[A-Za-z]+\.antt$/, "", place)
    gsub(/\//, "::", place)
    return crate "::" place
}

# the function of src/ that stands at a place PATH:LINE:COLUMN: an edit leaves each line where it is. A place may be that of an attribute above it
function function_at(place,   parts, path, line, at, of, found, owner) {
    split(place, parts, ":")
    path = "crates/" crate "/" parts[1]
    for (at = 1; (getline line < path) > 0; at++) {
        if (line ~ /^}/) of = ""
        if (line ~ /^impl[ <]/) of = block_of(line)
        if (line ~ /^ *(pub(\([a-z]+\))? )?(extern "C" )?fn [a-z]/) {
            sub(/^.*fn /, "", line)
            sub(/[^a-z0-9_].*/, "", line)
            found = line
            owner = of
            above = 0
        } else if (at == parts[2] && line ~ /^ *#\[/) above = 1
        if (at >= parts[2] && !above) break
    }
    close(path)
    above = 0
    return module_of(owner == "" ? path : type_path(owner, path)) "::" (owner == "" ? "" : owner "::") found
}

# a file of src/ as the module that it is
function module_of(path) {
    sub(/^crates\/[^\/]*\/src\//, "", path)
    sub(/\.rt$/, "", path)
    gsub(/\//, "::", path)
    return path == "lib" || path == "main" ? crate : crate "::" path
}

# the file of src/ in which a type stands, by which a check names its functions wherever they stand; for what is no type that of the functions
function type_path(of, path,   command) {
    command = "grep -rlE \"^(pub(\\([a-z]+\\))? )?(struct|enum) " of "[^A-Za-z0-9_]\" crates/" crate "/src"
    command | getline path
    close(command)
    return path
}

# what a check names the functions of an impl by: Word of `impl Word {`, WordLane of `impl Lane for Word {`. Its parameters are left out
function block_of(line,   at, open, letter) {
    sub(/ *\{$/, "", line)
    sub(/^impl/, "", line)
    for (at = 1; at <= length(line); at++) {
        letter = substr(line, at, 1)
        open += (letter == "<") - (letter == ">")
        if (letter == " " && !open) break
    }
    line = substr(line, at + 1)
    at = index(line, " for ")
    if (at) return type_name(substr(line, at + 5)) type_name(substr(line, 1, at - 1))
    sub(/[^A-Za-z0-9_].*/, "", line)
    return line
}

# a type as a check has it: ResultUsizeRefusal of Result<usize, a::Refusal>, ArrayU8aSIZE of [u8; a::SIZE], whose length keeps all of its path.
# A lifetime and a parameter, which is one capital letter, are left out
function type_name(text,   pieces, words, n, k, j, size, found) {
    gsub(/\[ */, "Array ", text)
    n = split(text, pieces, /; */)
    for (k = 1; k <= n; k++) {
        size = split(pieces[k], words, /[^A-Za-z0-9_:\047]+/)
        for (j = 1; j <= size; j++) {
            if (words[j] ~ /^\047|^[A-Z]$/) continue
            if (k == 1 || j > 1) {
                sub(/.*::/, "", words[j])
                words[j] = toupper(substr(words[j], 1, 1)) substr(words[j], 2)
            }
            gsub(/[^A-Za-z0-9]/, "", words[j])
            found = found words[j]
        }
    }
    return found
}

# the field of a record whose line `FIELD = ..` stands at a place PATH:LINE:COLUMN or next above it, within the same declaration
function field_at(place,   parts, path, line, at, field) {
    split(place, parts, ":")
    path = "crates/" crate "/" parts[1]
    for (at = 1; at <= parts[2] && (getline line < path) > 0; at++) {
        if (line ~ /^[^ }]/) field = ""
        if (match(line, /^ +[a-z][a-z0-9_-]* =( |$)/)) { field = line; gsub(/^ +| =.*/, "", field) }
    }
    close(path)
    return field
}

function check_carrier(k) {
    if (kind[k] == "fn") check_function(name[k], by[k])
    else if (!(("law", name[k]) in fallen)) fault(by[k], "the log has no error of law " name[k] " itself")
    else check_places(where["law", name[k]], by[k])
    if (wanted[k] && fallen[kind[k], name[k]] + 0 != wanted[k])
        fault(by[k], kind[k] " " name[k] " has " (fallen[kind[k], name[k]] + 0) " errors in the log, and not " wanted[k])
}

# A function is refused by itself where an error stands in its own code or proof, which a wrong body of another function cannot cause: only the
# contract of that one is used.
function check_function(what, of,   folder, place) {
    if (!(what in verdict)) { fault(of, "the log has no fn " what); return }
    if (!(("fn", what) in fallen)) fault(of, "fn " what " was not refused by itself: " verdict[what])
    folder = what
    sub("^" crate "::", "", folder)
    gsub(/::/, "/", folder)
    for (place in unfit) if (index(place, "proofs/" folder "/") == 1) check_places(place, of)
}

function check_places(text, of,   places, n, k) {
    n = split(text, places, " ")
    for (k = 1; k <= n; k++) if (places[k] in unfit) {
        fault(of, "it made the text of " places[k] " unfit (it names what is not there), which shows nothing of the program")
        return
    }
}

BEGIN { if (!each) read_told() }
FNR == 1 { end_file(); begin_file() }
/^wrong:/ { begin_program() }
/^fn:/ { carrier("fn") }
/^law:/ { carrier("law") }
/^errors:/ { errors() }
/^old: / { old = value() }
/^new:/ { pair() }
END {
    end_file()
    if (faults) exit 1
    if (each) print "edits: " total " wrong programs, each refused by itself"
    else print "edits: " total " wrong programs in " files " files, each refused, " own + 0 " of these first where a program of theirs says so"
}
' $edits
