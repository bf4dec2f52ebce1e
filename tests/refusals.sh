#!/bin/sh
# Whether docs/REFUSALS.md explains each refusal that there is, and no other: its numbers beside those of the definitions (every test of a list of tests in
# crates/*/specs, statement's Refusals.antt among them), of include/mogedorn.h and of README, its words beside README's, and what it says of each call beside the
# header. Run from the root of the repository; prints each difference and then fails.
set -eu
export LC_ALL=C
page=docs/REFUSALS.md
header=include/mogedorn.h
dir=$(mktemp -d)
trap 'rm -rf "$dir"' EXIT

# The rows of refusals: number and word.
rows() {
    sed -nE 's/^\| ([0-9]+) \| ([^|]*[^| ]) \|.*/\1 \2/p' "$1" | sort -u
}

numbers() {
    cut -d ' ' -f 1 | sort -un
}

# `(test, 23) ∷` is a test of a list and its refusal.
defined() {
    grep -hoE ', [0-9]+\) ∷' crates/*/specs/*.antt | grep -oE '[0-9]+' | sort -un
}

enumerated() {
    sed -nE 's/^ +MOGEDORN_[A-Z_]+ = ([0-9]+).*/\1/p' "$header" | sort -un
}

# The calls of the page's last table, a line each, and the numbers that they can say.
calls_of_page() {
    sed -nE 's/^\| (`[^|]*`) \| ([0-9, ]+) \|$/\1: \2/p' "$page" |
        awk -F ': ' '{ n = split($1, call, ", "); for (i = 1; i <= n; i++) { gsub(/`/, "", call[i]); print call[i] ": " $2 } }' | sort
}

# The same of the header: a comment's "Refusals 1, 2, .. ." is said of the entries that follow it.
calls_of_header() {
    awk '
        /\/\*/ { comment = ""; inside = 1 }
        inside { comment = comment " " $0 }
        /\*\// {
            inside = 0
            gsub(/[ \n]+/, " ", comment)
            said = match(comment, /Refusals [0-9, ]+[0-9]\./) ? substr(comment, RSTART + 9, RLENGTH - 10) : ""
            next
        }
        !inside && said != "" && /^[a-z].* mogedorn_[a-z0-9_]+\(/ && !/^static/ {
            match($0, /mogedorn_[a-z0-9_]+\(/)
            print substr($0, RSTART + 9, RLENGTH - 10) ": " said
        }' "$header" | sort
}

failed=0
same() {
    if ! diff "$dir/$2" "$dir/$3" > "$dir/difference"; then
        echo "$1:"
        cat "$dir/difference"
        failed=1
    fi
}

rows "$page" > "$dir/page"
rows README.md > "$dir/readme"
numbers < "$dir/page" > "$dir/page.numbers"
defined > "$dir/defined"
enumerated > "$dir/enumerated"
calls_of_page > "$dir/calls.page"
calls_of_header > "$dir/calls.header"
cut -d ' ' -f 2- "$dir/calls.page" | tr -d ' ' | tr ',' '\n' | sort -un > "$dir/calls.numbers"
same "numbers of $page (<) and of the definitions (>)" page.numbers defined
same "numbers of $page (<) and of $header (>)" page.numbers enumerated
same "refusals of $page (<) and of README.md (>)" page readme
same "calls of $page (<) and of $header (>)" calls.page calls.header
same "numbers of $page (<) and of its calls (>)" page.numbers calls.numbers
if grep -qx 28 "$dir/defined" "$dir/enumerated" "$dir/page.numbers"; then
    echo "28 is in use again"
    failed=1
fi
[ "$failed" = 0 ] && echo "$(wc -l < "$dir/page.numbers") refusals and $(wc -l < "$dir/calls.page") calls: $page, $header, README.md and the definitions agree"
exit "$failed"
