# Reads the list of refusals in Rust, each `Name = number, "sentence";`.

END {
    gsub(/\\\n[ \t]*/, "", text)
    while (match(text, /[A-Z][A-Za-z0-9]* = [0-9]+, "[^"]*";/)) {
        name = number = words = substr(text, RSTART, RLENGTH - 2)
        text = substr(text, RSTART + RLENGTH)
        sub(/ .*/, "", name)
        sub(/^[^=]*= /, "", number)
        sub(/,.*/, "", number)
        sub(/^[^"]*"/, "", words)
        say("refusal " number, toupper(snake(name)) ": " words)
    }
}
