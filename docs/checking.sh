#!/usr/bin/env bash
# Prints the table of docs/CHECKING.md: for each crate its lines, and its must-fail edits that were refused (from a log of `rt ci`).
# Usage: rt ci 2>&1 | tee LOG; docs/checking.sh LOG
set -euo pipefail
cd "$(dirname "$0")/.."
log=$1
lines() { find "crates/$1/$2" -name "*.$3" -exec cat {} + 2>/dev/null | wc -l; }
rt version
echo
echo "| crate | lines of code | of specs | of proofs | must-fail edits |"
echo "|---|---|---|---|---|"
for crate in $(sed -n 's/^\([a-z_]*\)[: ].*/\1/p' crates.txt); do
    edits=$(grep -c "^rt: must-fail $crate/.*refused" "$log" || true)
    echo "| \`$crate\` | $(lines "$crate" src rt) | $(lines "$crate" specs antt) | $(lines "$crate" proofs antt) | $edits |"
done
