#!/usr/bin/env bash
# Wrong programs that the compiler must refuse, and a mended twin of each that it must prove.
# NAME.txt is wrong; each line of NAME.words stands in what the compiler says of it; NAME.mended.txt is the twin.
# Each text becomes a crate above copies of the libraries, in a folder of their own. Run it at any time: the first text's
# check proves the libraries, and the others use that.
set -euo pipefail
here=$(cd "$(dirname "$0")" && pwd -P)
crates=$(dirname "$here")/crates
libraries='items stores protocol queue'

tmp=$(mktemp -d)
trap 'rm -rf "$tmp"' EXIT
mkdir "$tmp/crates"
for l in $libraries; do
    mkdir "$tmp/crates/$l"
    for part in src specs proofs; do
        if [ -d "$crates/$l/$part" ]; then cp -r "$crates/$l/$part" "$tmp/crates/$l/"; fi
    done
    grep "^$l:" "$(dirname "$here")/crates.txt" >>"$tmp/crates.txt"
done

# Checks a text as a crate above the libraries. What the compiler says goes to $tmp/said.
check() { # TEXT NAME
    mkdir -p "$tmp/crates/$2/src"
    cp "$1" "$tmp/crates/$2/src/lib.rt"
    echo "$2: $libraries" >>"$tmp/crates.txt"
    status=0
    (cd "$tmp/crates/$2" && rt check) >"$tmp/said" 2>&1 || status=$?
}

bad=0
wrong() { # LINE
    echo "refused: $1"
    sed "s|$tmp/||g; s/^/    /" "$tmp/said"
    bad=1
}

for text in "$here"/*.txt; do
    case $text in *.mended.txt) continue ;; esac
    name=$(basename "$text" .txt)
    : >"$tmp/said"
    if [ ! -s "$here/$name.words" ] || [ ! -s "$here/$name.mended.txt" ]; then
        wrong "$name: BAD, it has no words or no mended twin"
        continue
    fi

    check "$text" "$name"
    missing=
    while IFS= read -r line; do
        [ -z "$line" ] || grep -qF -- "$line" "$tmp/said" || missing=$line
    done <"$here/$name.words"
    if [ "$status" -ne 1 ]; then
        wrong "$name: BAD, it is to be refused with status 1, and the status is $status"
    elif [ -n "$missing" ]; then
        wrong "$name: BAD, the compiler did not say: $missing"
    else
        echo "refused: $name is refused: $(head -n 1 "$here/$name.words")"
    fi

    check "$here/$name.mended.txt" "${name}_mended"
    if [ "$status" -eq 0 ] && tail -n 1 "$tmp/said" | grep -q '^logic=proved '; then
        echo "refused: $name.mended is proved"
    else
        wrong "$name.mended: BAD, it is not proved"
    fi
done
[ "$bad" -eq 0 ] || echo "refused: FAILED"
exit "$bad"
