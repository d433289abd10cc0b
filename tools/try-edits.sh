#!/bin/sh
# Tries the wrong programs of some crates one file after another, and keeps what each check says in build/must-fail/CRATE/LABEL.log, which
# `tools/check-edits.sh each CRATE` reads. `rt ci` tries them all the same and tells of each file where its first error stands, and no more; this
# takes a check for each file, from seconds to a minute, and is no part of the gate.
# Usage: tools/try-edits.sh NAME..    each a crate. The checks run in a copy of crates/, which begins with what checks here have kept.
set -u
cd "$(dirname "$0")/.." || exit 1
export LC_ALL=C
top=$PWD
script=try-edits
. tools/checks.sh

# edited EDIT: writes the files of the crate in this folder as the edit has them. Each old: text stands once, which `make check-docs` asks for.
edited() {
    awk '
    function load(path,   line) {
        if (path in count) return
        count[path] = 0
        while ((getline line < path) > 0) text[path, ++count[path]] = line
        close(path)
    }
    /^file: / { path = substr($0, 7); load(path) }
    /^old: / { old = substr($0, 6) }
    /^new:/ {
        new = substr($0, 6)
        for (k = 1; k <= count[path]; k++) {
            at = index(text[path, k], old)
            if (at) text[path, k] = substr(text[path, k], 1, at - 1) new substr(text[path, k], at + length(old))
        }
    }
    END { for (path in count) for (k = 1; k <= count[path]; k++) print text[path, k] > path }
    ' "$1"
}

[ $# -gt 0 ] || fail 'which crates?'
mkdir -p "$scratch/crates" "$scratch/.git"
cp crates.txt "$scratch/"
for folder in crates/*; do
    mkdir "$scratch/$folder"
    for part in src specs proofs; do
        [ ! -d "$folder/$part" ] || cp -R "$folder/$part" "$scratch/$folder/"
    done
done
for name; do
    ls "crates/$name/must-fail/"*.edit >/dev/null 2>&1 || fail "there is no crates/$name/must-fail"
    mkdir -p "build/must-fail/$name"
    cd "$scratch/crates/$name" || exit 1
    for edit in "$top/crates/$name/must-fail/"*.edit; do
        log=$top/build/must-fail/$name/$(basename "$edit" .edit).log
        cp -R src "$scratch/src" && cp -R specs "$scratch/specs" 2>/dev/null
        cp -R proofs "$scratch/proofs" 2>/dev/null
        edited "$edit"
        rt check >"$log.part" 2>&1
        grep -v '^rt: ' "$log.part" >"$log"
        rm "$log.part"
        for part in src specs proofs; do
            [ ! -d "$scratch/$part" ] || { rm -rf "$part" && mv "$scratch/$part" .; }
        done
        passed=$((passed + 1))
        echo "$name/$(basename "$edit"): $(tail -n 1 "$log")"
    done
    cd "$top" || exit 1
done
echo "tried: $passed files, their logs in build/must-fail"
