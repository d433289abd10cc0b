# Reads Rust and Rattle: functions named hubqr_.., structs marked #[repr(C)], and the number that the body of hubqr_version answers.

END {
    gsub(/\/\/[^\n]*/, "", text)
    constants(text)
    functions(text)
    structs(text)
    version(text)
}

# Lines `const NAME: type = value;`
function constants(text,   lines, n, k, name) {
    n = split(text, lines, "\n")
    for (k = 1; k <= n; k++) {
        if (!match(lines[k], /const [A-Z0-9_]+: [a-z0-9]+ = /)) continue
        name = substr(lines[k], RSTART + 6)
        sub(/:.*/, "", name)
        constant[name] = substr(lines[k], RSTART + RLENGTH)
        sub(/;.*/, "", constant[name])
    }
}

function functions(text,   name, parameters, result) {
    while (match(text, /fn hubqr_[a-z0-9_]+ *\(/)) {
        name = trim(substr(text, RSTART + 3, RLENGTH - 4))
        text = substr(text, RSTART + RLENGTH)
        parameters = substr(text, 1, index(text, ")") - 1)
        text = substr(text, index(text, ")") + 1)
        result = match(text, /^[ \t\n]*->[ \t\n]*[A-Za-z0-9_:]+/) ? substr(text, RSTART, RLENGTH) : "void"
        sub(/^[ \t\n]*->/, "", result)
        say("function " name, "(" named(parameters) ") -> " type(result))
    }
}

function structs(text,   at, name, fields) {
    while (at = index(text, "#[repr(C)]")) {
        text = substr(text, at + 10)
        if (!match(text, /struct [A-Za-z0-9_]+ *\{[^}]*\}/)) return
        name = fields = substr(text, RSTART + 7, RLENGTH - 8)
        sub(/ *\{.*/, "", name)
        sub(/^[^{]*\{/, "", fields)
        say("struct " snake(name), named(fields))
    }
}

# The body is what stands behind the last brace that opens: those of the contract are closed before it. One that hands on the call of another
# crate has no number.
function version(text) {
    if (!match(text, /fn hubqr_version\(\)[^;{]*\{/)) return
    text = substr(text, RSTART)
    text = substr(text, 1, index(text, "\n}") - 1)
    sub(/^.*\{/, "", text)
    if (text !~ /::/) say("version", value(text))
}

# Parameters or fields, apart by commas.
function named(text,   parts, n, k, out) {
    n = split(text, parts, ",")
    for (k = 1; k <= n; k++) {
        if (trim(parts[k]) != "") out = out ", " one_named(trim(parts[k]))
    }
    return substr(out, 3)
}

# `name: type`. A reference is a pointer, and one to a slice a pointer and a length. What C calls a record is called `bytes` in Rattle, and a
# result `res`, since its contracts have another use for those words.
function one_named(text,   name, target, pointer) {
    sub(/^pub(\([a-z]*\))? /, "", text)
    sub(/^mut /, "", text)
    name = target = text
    sub(/ ?:.*/, "", name)
    sub(/^[^:]*: ?/, "", target)
    if (name == "bytes") name = "record"
    if (name == "res") name = "result"
    if (target !~ /^&/) return name ": " type(target)
    pointer = target ~ /^&mut / ? "*mut " : "*const "
    sub(/^&(mut )?/, "", target)
    if (target !~ /^\[[^;]*\]$/) return name ": " pointer type(target)
    return name ": " pointer type(substr(target, 2, length(target) - 2)) ", " name "_len: usize"
}

function type(text,   at) {
    text = trim(text)
    if (text ~ /^\*const /) return "*const " type(substr(text, 8))
    if (text ~ /^\*mut /) return "*mut " type(substr(text, 6))
    if (match(text, /;[^;]*\]$/)) {
        at = RSTART
        return "[" type(substr(text, 2, at - 2)) "; " value(substr(text, at + 1, length(text) - at - 1)) "]"
    }
    sub(/^.*::/, "", text)
    return text ~ /^[A-Z]/ ? snake(text) : text
}
