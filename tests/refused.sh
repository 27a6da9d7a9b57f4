#!/usr/bin/env bash
# Whether a search that was handed over or closed takes no call: each program of tests/refused is laid out as a crate in
# a temporary copy and compiled. The borrow check comes before any proof, so `rt try` tells. The two that use a moved
# search have to be refused for just that; the one that does the same in order has to be taken.
# The last line counts them: 'N passed, 0 failed'.
set -u
cd "$(dirname "$0")/.." || exit 2
copy=$(mktemp -d)
trap 'rm -rf "$copy"' EXIT
tar --exclude=out -cf - crates crates.txt | tar xf - -C "$copy"

# The errors of a program, one a line.
errors() {
    mkdir -p "$copy/crates/$1/src"
    cp "tests/refused/$1.txt" "$copy/crates/$1/src/main.rt"
    echo "$1: picture rate reference measure window search" >> "$copy/crates.txt"
    (cd "$copy/crates/$1" && rt try 2>&1) | tee "$copy/$1.log" | grep -E 'error' | grep -v '^note'
}

moved='^src/main\.rt:[0-9]+:[0-9]+: error\[borrow-e0382\]: borrow of moved value: `search`'
passed=0
failed=0
for program in after_handover after_close; do
    found=$(errors "$program")
    if [ "$(printf '%s\n' "$found" | wc -l)" -eq 1 ] && printf '%s\n' "$found" | grep -qE "$moved"; then
        passed=$((passed + 1))
    else
        echo "$program was not refused for the use of a moved search:"
        cat "$copy/$program.log"
        failed=$((failed + 1))
    fi
done
found=$(errors in_order)
if [ -z "$found" ] && grep -q '^run=' "$copy/in_order.log"; then
    passed=$((passed + 1))
else
    echo "in_order was not taken:"
    cat "$copy/in_order.log"
    failed=$((failed + 1))
fi
echo "$passed passed, $failed failed"
[ "$failed" -eq 0 ]
