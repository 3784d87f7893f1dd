#!/bin/sh
# Makes the checker's record from the outputs of the gate:
#
#   (date +%s; .ci/run; date +%s) > gate.log 2>&1; docs/record.sh gate.log > docs/RECORD.md
#
# A gate proves only what changed since an earlier run on the same machine. What it kept stands in that run's output: give the older outputs
# first, the last one last. Of a crate and of a wrong program the last output that has it counts. Nothing is checked again.
[ $# -ge 1 ] || { echo "usage: docs/record.sh GATE-OUTPUT.." >&2; exit 2; }
for last; do :; done
logs=$*
cd "$(dirname "$0")/.." || exit 2

# how long the last gate took, from the times before and behind it
took() { awk '/^[0-9]+$/ { if (first == "") first = $0; last = $0 } END { t = last - first; printf "%d min %d s", t / 60, t % 60 }' "$last"; }

cat <<HEAD
# The checker's record

Made by \`docs/record.sh\` from the outputs of the gate; no line is written by hand.

| | |
|---|---|
| text that was checked | \`git rev-parse HEAD:crates\` is \`$(git rev-parse HEAD:crates)\` |
| kit | \`$(rt version)\` |
| machine | $(uname -sm), $(nproc) processors |
| last line of the gate | \`$(grep -E '^[0-9]+ passed, [0-9]+ failed$' "$last" | tail -1)\` |
| wrong programs | $(sed -n 's/^rt: ok;.*must-fail edits: \([^;]*\);.*/\1/p' "$last" | tail -1) |
| time | $(took), over what earlier runs on the machine had proved |

To hold it against a copy: \`git rev-parse HEAD:crates\` in that copy gives the same name for the same text. To get it again:

    (date +%s; .ci/run; date +%s) > gate.log 2>&1; docs/record.sh gate.log > docs/RECORD.md

## Crates

"Functions" are those with a body: each is proved to meet its contract, to stay inside the memory it was lent, and to end. "Assumed" are
functions of the C library, reached through the kit's standard library, whose contracts are taken on trust; a crate without a number assumes
nothing.

| crate | functions | assumed |
|---|---|---|
HEAD
# shellcheck disable=SC2086
cat $logs | awk '
    /^axioms / { if ($0 ~ /none reached/) next; sub(/^axioms [^:]*: /, ""); sub(/ \([0-9]+ of the .*/, ""); names = names (names == "" ? "" : ", ") $0; next }
    /^logic=proved / {
        a = ""
        for (i = 1; i <= NF; i++) { if ($i ~ /^functions=/) f = substr($i, 11); if ($i ~ /^axioms=/) a = substr($i, 8) }
        next
    }
    /^rt: [a-z_0-9]+ proved$/ { row[$2] = sprintf("| `%s` | %s | %s |", $2, f, (a == "" ? "" : a " (" names ")")); a = ""; names = ""; next }
    /^== / { names = "" }
    END { while ((getline line < "crates.txt") > 0) { sub(/[ :].*/, "", line); if (line in row) print row[line] } }
'
cat <<'FACTS'

## Wrong programs

Each is a small edit that the gate applies to a copy of its crate; [WRONG-PROGRAMS.md](WRONG-PROGRAMS.md) says what each does. "Refused by" is
the first fact that the checker could not accept, and where: a goal of a function's proof (`returns` is what its contract promises where it
returns, `loop-X-preserved` that the invariant of the loop X is kept, `F-requires` what a call of F asks for), or a law in a file of `proofs/`.

| edit | refused by | in |
|---|---|---|
FACTS
# shellcheck disable=SC2086
cat $logs | sed -n 's/^rt: must-fail \([^ ]*\)\.edit: refused, as it must be: \(.*\)$/\1 \2/p' | while read -r edit said; do
    place=$(printf '%s' "$said" | sed 's/^note: //; s/^\.\///; s/:[0-9]*:[0-9]*:.*//; s/\/Answers\.antt$//')
    fact=$(printf '%s' "$said" | sed -n 's/.*error: `\([^`]*\)`.*/\1/p; s/.*(`\([^`]*\)`).*/\1/p' | head -1)
    printf '%s | `%s` | `%s` | `%s` |\n' "$edit" "$edit" "$fact" "$place"
done | awk -F' [|] ' '{ if (!($1 in row)) order[++n] = $1; row[$1] = substr($0, index($0, "|")) } END { for (i = 1; i <= n; i++) print row[order[i]] }' | LC_ALL=C sort
cat <<'RUNS'

## Programs

Each is built and run on its own input, once by each of the kit's two compilers; what it writes is held to the file `stdout` beside it, byte by
byte.

| program | compiler | result |
|---|---|---|
RUNS
sed -n "s/^rt: \([a-z_0-9]*\) ran, and wrote what its file stdout has.*/| \`\1\` | LLVM | wrote what its file \`stdout\` has |/p; s/^rt: \([a-z_0-9]*\) ran (built by Rattle's own compiler), and wrote what its file stdout has.*/| \`\1\` | Rattle's own | wrote what its file \`stdout\` has |/p" "$last"
