# What the readers of declarations share. A reader finds its whole input in `text` at the end, and says what it read as lines of a key, a
# tab, and the content in one spelling: types as Rust writes them, a struct's name as C has it without hubqr_. What it does not understand
# becomes a line `fault`.

{ text = text $0 "\n" }

function say(key, content) {
    printf "%s\t%s\n", key, content
}

# the text with single blanks between its words
function trim(text) {
    gsub(/[ \t\n]+/, " ", text)
    sub(/^ /, "", text)
    sub(/ $/, "", text)
    return text
}

# LoadReply is load_reply
function snake(name,   k, c, out) {
    for (k = 1; k <= length(name); k++) {
        c = substr(name, k, 1)
        out = out (c ~ /[A-Z]/ && k > 1 ? "_" : "") tolower(c)
    }
    return out
}

# the value of a sum of products of numbers and names of constants
function value(text,   terms, factors, n, m, k, j, product, sum) {
    gsub(/[() \t\n]/, "", text)
    n = split(text, terms, "+")
    for (k = 1; k <= n; k++) {
        product = 1
        m = split(terms[k], factors, "*")
        for (j = 1; j <= m; j++) product *= factor(factors[j])
        sum += product
    }
    return sum
}

# A name that is no constant of the same sources has no value: two of them must not pass for the same length.
function factor(text,   digits) {
    sub(/^.*::/, "", text)
    if (text in constant) return value(constant[text])
    digits = text
    gsub(/_|u32|usize/, "", digits)
    if (digits !~ /^[0-9]+$/) say("fault", "not understood: " text)
    return digits + 0
}
