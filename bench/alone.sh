#!/usr/bin/env bash
# What `alone` takes for random rows of 256 bits that are inserted, and random values that are searched at ef 40; beside it the same
# script over arrays in plain Rust, whose replies are to be the same. Not part of the gate.
# usage: bench/alone.sh [ROWS [SEARCHES]], at the top of the repository; 63,000 and 1,000 where nothing is named. It needs rustc.
set -eu
rows="${1:-63000}"
searches="${2:-1000}"
work=$(mktemp -d)
trap 'rm -r "$work"' EXIT
# A word is a random number of 53 bits and eleven zeros.
awk -v rows="$rows" -v searches="$searches" '
    function bits(  i, text) { text = ""; for (i = 0; i < 256; i++) text = text (rand() < 0.5 ? "0" : "1"); return text }
    BEGIN {
        srand(1); print "create hnsw hamming 256"
        for (k = 0; k < rows; k++) printf "insert %d/%d %s %.0f\n", int(k / 1000), k % 1000 + 1, bits(), int(rand() * 2 ^ 53) * 2048
        for (k = 0; k < searches; k++) printf "search %s limit 10 ef 40\n", bits()
    }' > "$work/all"
grep -v '^search' "$work/all" > "$work/inserts"
rustc --edition 2021 -O -o "$work/plain" bench/plain_hnsw.rs
./vec_run alone < /dev/null
taken() {
    /usr/bin/time -f '%U %M' -o "$work/taken" ./vec_run alone < "$1" > "$2"
    cat "$work/taken"
}
read -r making memory < <(taken "$work/inserts" "$work/first")
read -r whole most < <(taken "$work/all" "$work/replies")
echo "alone: $rows inserts in $making s of processor, $((memory / 1024)) MB; $searches searches in $(echo "$whole - $making" | bc) s, $((most / 1024)) MB"
"$work/plain" < "$work/all" > "$work/plain_replies"
cmp "$work/replies" "$work/plain_replies" && echo "the same replies"
