#!/bin/sh
# Lists the places of each point of docs/DESIGN-PASS.md in the source of a commit, or of the last one where none is named.
# Usage: tools/places.sh [COMMIT]
cd "$(dirname "$0")/.." || exit 1
tree=${1:-HEAD}
src='crates/*/src/*.rt'
tests=':!crates/*/src/tests.rt'
places() {
    echo "== $1"
    shift
    git grep -nE "$@" | sed "s/^$tree://"
}
places '1: enums' '^\s*(pub(\([a-z]+\))? )?enum ' "$tree" -- "$src"
places '1: flags, and numbers for refusals' 'has_(place|letter)|-> Result<[A-Za-z]+(<[^>]*>)?, usize>|=> 16,|NO_LETTER' "$tree" -- "$src"
echo '== 2: function names that stand more than once, when a word for the kind of sheet or of bytes is left out'
git grep -hoE '\bfn [a-z_]+' "$tree" -- "$src" | sed 's/fn nfa_/fn /; s/_nfa\b//; s/_text\b//; s/_numbers\b//; s/_spelled\b//; s/_copy\b//' | sort | uniq -c | sort -rn | awk '$1 > 1'
places '3: loops' '^\s*(let [a-z ]+ = )?(while|loop|for)\b' "$tree" -- "$src"
places '4: conversions' 'fn (number|on_side|bits|of|empty|apart|letter|from|try_from)\b| as u(8|16|32|64|size)' "$tree" -- "$src" "$tests"
places '4: printing' 'format!|write!|Display' "$tree" -- "$src"
echo '== 5: clauses that stand in three or more contracts'
git grep -hE '^\s*(requires|ensures)' "$tree" -- "$src" | sed -E 's/^\s*(requires|ensures)( [a-z]+)? \{/\1 {/' | sort | uniq -c | sort -rn | awk '$1 > 2'
places '5: parameters that travel together' 'sheet: &\[u8\], (size|counts)|bytes: &\[u8\], spelling|out: &mut Vec|heap: Global, out' "$tree" -- "$src" "$tests"
places '6: buffers with a length, parallel arrays, searches by hand' 'len: usize|length: usize|binary_search|\[[a-z0-9]+; [A-Z0-9a-z_]+\]' "$tree" -- "$src" "$tests"
places '7: switches on a step, tables of functions' 'match (self|spelling|class)\b|: fn\(|dyn |\[fn' "$tree" -- "$src" "$tests"
echo '== 8: answers, lemmas, and lines of proof, by crate'
for crate in automaton combine sheet catalogue trial; do
    answers=$(git grep -hE '^pub .* : goal\.' "$tree" -- "crates/$crate/proofs" | wc -l)
    lines=$(git grep -hc '' "$tree" -- "crates/$crate/proofs" | awk '{ n += $1 } END { print n }')
    lemmas=$(git grep -hE '^( *pub)? *[a-zA-Z0-9_-]+ : ' "$tree" -- "crates/$crate/proofs/*.antt" | grep -vc 'goal\.')
    echo "$crate: $answers answers, $lemmas lemmas and facts, $lines lines"
done
