# Reads the headers: functions, structs, refusals, roles and the version. An attribute that a function lacks is a fault too.

BEGIN {
    n = split("uint8_t u8 uint16_t u16 uint32_t u32 uint64_t u64 int8_t i8 int16_t i16 int32_t i32 int64_t i64 " \
              "size_t usize float f32 double f64", pairs, " ")
    for (k = 1; k < n; k += 2) plain[pairs[k]] = pairs[k + 1]
}

END {
    read_lines(without_comments(text))
    read_items(code)
    say("version", value("HUBQR_VERSION"))
}

function without_comments(text,   from, rest) {
    while (from = index(text, "/*")) {
        rest = substr(text, from + 2)
        text = substr(text, 1, from - 1) " " substr(rest, index(rest, "*/") + 2)
    }
    return text
}

# Takes the lines for the preprocessor out; what is left is in `code`.
function read_lines(text,   lines, n, k) {
    gsub(/\\\n/, " ", text)
    n = split(text, lines, "\n")
    for (k = 1; k <= n; k++) {
        if (lines[k] ~ /^[ \t]*#/) definition(trim(lines[k]))
        else if (lines[k] !~ /^extern "C"/) code = code lines[k] "\n"
    }
}

# `#define NAME value`, or a list of refusals, each X(NAME, number, "sentence").
function definition(text,   name, content, parts) {
    if (text !~ /^# ?define /) return
    sub(/^# ?define /, "", text)
    name = content = text
    sub(/ .*/, "", name)
    sub(/^[^ ]+ ?/, "", content)
    constant[name] = content
    gsub(/" "/, "", text)
    while (match(text, /X\(HUBQR_[A-Z0-9_]+, *[0-9]+, *"[^"]*"\)/)) {
        content = substr(text, RSTART + 8, RLENGTH - 10)
        text = substr(text, RSTART + RLENGTH)
        split(content, parts, /, */)
        sub(/^[^"]*"/, "", content)
        say("refusal " parts[2], parts[1] ": " content)
        say("number " parts[2], "")
    }
}

# Takes the code apart at the semicolons outside of braces. A function with a body is the header's own and of no interest here, and a
# brace that closes nothing is that of extern "C".
function read_items(code,   n, k, c, item, depth) {
    n = length(code)
    for (k = 1; k <= n; k++) {
        c = substr(code, k, 1)
        item = item c
        if (c == "{") depth++
        if (c == "}" && depth) depth--
        if (depth) continue
        if (c == ";") declared(without_attributes(substr(item, 1, length(item) - 1)))
        if (c == ";" || c == "}" && without_attributes(item) ~ /^(static .*)?\}$/) item = ""
    }
    if (trim(item) != "") say("fault", "not understood: " trim(item))
}

# An item without the attributes before it. Those behind the parameters of a function stay.
function without_attributes(item) {
    item = trim(item)
    while (sub(/^HUBQR_[A-Z]+(\([0-9, ]*\))? /, "", item));
    return item
}

# The roles and their numbers, each HUBQR_NAME = number.
function roles(item,   parts) {
    while (match(item, /HUBQR_[A-Z]+ = [0-9]+/)) {
        split(substr(item, RSTART + 6, RLENGTH - 6), parts, " = ")
        say("role " parts[1], parts[2])
        item = substr(item, RSTART + RLENGTH)
    }
}

function declared(item) {
    if (item ~ /^enum hubqr_role /) roles(item)
    if (item ~ /^enum /) return
    if (item ~ /^struct hubqr_[a-z0-9_]+ ?\{/) structure(item)
    else if (item ~ /hubqr_[a-z0-9_]+ ?\(/) declaration(item)
    else say("fault", "not understood: " item)
}

# A type may stand before several names.
function structure(text,   name, members, names, n, m, k, j, out) {
    match(text, /hubqr_[a-z0-9_]+/)
    name = substr(text, RSTART + 6, RLENGTH - 6)
    sub(/^[^{]*\{/, "", text)
    sub(/\}.*$/, "", text)
    n = split(text, members, ";")
    for (k = 1; k <= n; k++) {
        m = split(members[k], names, ",")
        for (j = 1; j <= m; j++) {
            if (trim(names[j]) != "") out = out ", " named(j > 1 ? base " " names[j] : names[j])
        }
    }
    say("struct " name, substr(out, 3))
}

# What stands behind the parameters is attributes.
function declaration(text,   name, result, end, list, parameters, n, k, out) {
    match(text, /hubqr_[a-z0-9_]+ ?\(/)
    result = type(substr(text, 1, RSTART - 1))
    name = trim(substr(text, RSTART, RLENGTH - 1))
    text = substr(text, RSTART + RLENGTH)
    end = index(text, ")")
    list = trim(substr(text, 1, end - 1))
    n = list == "void" ? 0 : split(list, parameters, ",")
    for (k = 1; k <= n; k++) {
        out = out ", " named(parameters[k])
        if (parameters[k] ~ /\*/) pointed(name, k, parameters[k], substr(text, end + 1))
    }
    if (text !~ /HUBQR_REPLY/) say("fault", name " has no HUBQR_REPLY")
    say("function " name, "(" substr(out, 3) ") -> " result)
    say("symbol " name, "")
}

# The compiler is told of each pointer what is done behind it, and that the next parameter is its length.
function pointed(name, place, parameter, attributes,   use) {
    use = parameter ~ /const / ? "READS" : "(CHANGES|FILLS)"
    if (attributes ~ ("HUBQR_" use "\\(" place ", " place + 1 "\\)")) return
    say("fault", name " has no HUBQR_" use "(" place ", " place + 1 ")")
}

# `type name` or `type name[8][4]`, as `name: type`. The type without its arrays is left in `base`.
function named(text,   sizes, n, k, name, whole) {
    text = trim(text)
    for (n = 0; match(text, / ?\[[^]]*\]$/); n++) {
        sizes[n] = substr(text, RSTART, RLENGTH)
        gsub(/[][]/, "", sizes[n])
        text = substr(text, 1, RSTART - 1)
    }
    match(text, /[A-Za-z_][A-Za-z0-9_]*$/)
    name = substr(text, RSTART)
    base = substr(text, 1, RSTART - 1)
    whole = type(base)
    for (k = 0; k < n; k++) whole = "[" whole "; " value(sizes[k]) "]"
    return name ": " whole
}

function type(text,   is_const, is_pointer) {
    text = " " text
    is_const = gsub(/ const /, " ", text)
    is_pointer = gsub(/\*/, "", text)
    text = trim(text)
    sub(/^struct hubqr_/, "", text)
    if (text in plain) text = plain[text]
    if (!is_pointer) return text
    return (is_const ? "*const " : "*mut ") text
}
