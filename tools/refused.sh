#!/usr/bin/env bash
# Programs that must not build. Each crates/NAME/refused/*.edit is made in a copy of the program NAME; the compiler has to refuse
# the copy with the error that the edit names, and to take the program as it is. `rt try` compiles each copy over the libraries'
# sources and runs what compiles: nothing is proved here, so this takes a minute or two.
set -euo pipefail
cd "$(dirname "$0")/.."
work=$(mktemp -d)
trap 'rm -rf "$work"' EXIT

cp crates.txt "$work"
for folder in crates/*/src; do
    mkdir -p "$work/${folder%/src}"
    cp -R "$folder" "$work/$folder"
done

# Compiles the copy of the program, and runs it where it compiles; what the compiler says of it is in $work/log.
compiles() { # NAME
    local file data=()
    for file in "$PWD/crates/$1/data"/*; do
        [ ! -f "$file" ] || data+=(--data "${file##*/}=$file")
    done
    (cd "$work/crates/$1" && rt try ${data[@]+"${data[@]}"} </dev/null >/dev/null 2>"$work/log")
}

# Puts the edit's new text in place of its old one, which has to stand once in its file.
apply() { # NAME EDIT
    local file
    file=$work/crates/$1/$(sed -n 's/^file: //p' "$2")
    OLD=$(sed -n 's/^old: //p' "$2") NEW=$(sed -n 's/^new: //p' "$2") awk '
        { text = text $0 "\n" }
        END {
            old = ENVIRON["OLD"]
            at = index(text, old)
            rest = substr(text, at + length(old))
            if (old == "" || !at || index(rest, old)) exit 1
            printf "%s%s%s", substr(text, 1, at - 1), ENVIRON["NEW"], rest
        }' "$file" >"$work/edited" && mv "$work/edited" "$file"
}

fresh() { # NAME
    rm -rf "$work/crates/$1/src"
    cp -R "crates/$1/src" "$work/crates/$1/src"
}

bad=0
for folder in crates/*/refused; do
    program=${folder#crates/} program=${program%/refused}
    fresh "$program"
    if compiles "$program"; then
        echo "$program: compiles as it is"
    else
        echo "$program: DOES NOT COMPILE as it is" && cat "$work/log" && bad=1
    fi
    for edit in "$folder"/*.edit; do
        label=$program/$(basename "$edit" .edit) error=$(sed -n 's/^error: //p' "$edit")
        fresh "$program"
        if ! apply "$program" "$edit"; then
            echo "$label: BAD EDIT: its old text does not stand once in its file" && bad=1
        elif compiles "$program"; then
            echo "$label: NOT REFUSED" && bad=1
        elif [ -n "$error" ] && grep -qF "error[$error]" "$work/log"; then
            echo "$label: refused, as it must be ($error)"
        else
            echo "$label: REFUSED FOR ANOTHER REASON than $error" && head -n 5 "$work/log" && bad=1
        fi
    done
    fresh "$program"
done
exit $bad
