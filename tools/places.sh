#!/bin/bash
# Lists the places that the design pass looks for, point by point, and counts them: tools/places.sh [FOLDER]
# What a pattern finds is a candidate; docs/DESIGN-PASS.md says which of them are places.
cd "${1:-$(dirname "$0")/..}" || exit 1
src() { find crates -path '*/src/*.rt' ! -name tests.rt ! -path '*/out/*' ! -path '*/target/*' | sort; }
point() {
    echo "== $1"
    src | xargs grep -nE "$2" | grep -vE '^[^:]*:[0-9]+: *(//|ghost|requires|ensures)' | tee /tmp/places.$$
    echo "-- $1: $(wc -l < /tmp/places.$$)"
}
point '1a passed on by hand' 'Err\((fault|_)\) =>|None => (None|false|true|return|\{\})|(let|if let) (Ok|Some)\(.*\) = .* else \{$|let (Ok|Some)\(.*\) = .* else \{$'
point '1b numbers and words for kinds and refusals' 'NO_CODE|"[a-z]+" =>|what: &str|what ==|number: u8|[a-z_]*kind: u8|refusal\([0-9]|fn find\('
point '3 indices counted by hand' 'for [a-z_]+ in .*\.\.|while [^l]|[a-z)]\[([a-z_.]*(start|from|place|at|len|next)\b|[ik]\b|[0-9])[^]]*\]'
point '4 conversions, comparisons and printing by hand' 'fn (from_[a-z]+|of|typed|code|kg|kind|value|characters|letters|number|layer|is_earlier|tell[a-z_]*)\b|words\[[0-3]\] =='
point '6 buffers with a length beside' '^ +(pub\(crate\) )?(len|next|bits|place): (usize|u32),|\[0; (32_768|4096|76)\]|let mut count = 0|let mut number = 1'
point '7 a switch on the step' 'match what|match kind|what ==|match letter|match command|match step'
echo "== 2 names of functions that stand in more than one file"
src | xargs grep -hoE 'fn [a-z_]+' | grep -vE 'fn (new|main|number|place|from|of)$' | sort | uniq -c | awk '$1 > 1' | tee /tmp/places.$$
echo "-- 2: $(wc -l < /tmp/places.$$)"
echo "== 5 clauses that stand three times or more"
src | xargs grep -hE '^ *(requires|ensures)' | sed -E 's/^ *(requires|ensures) ?[a-z_]* ?//' | sort | uniq -c | awk '$1 > 2' | sort -rn | tee /tmp/places.$$
echo "-- 5: $(wc -l < /tmp/places.$$)"
echo "== 8 files and lines of answers and invariants, and of lemmas"
find crates -path '*/proofs/*' ! -path '*/out/*' ! -path '*/target/*' \( -name Answers.antt -o -name Invariants.antt \) | sort | xargs cat | grep -c . | sed 's/^/-- 8 lines of answers: /'
find crates -path '*/proofs/*' ! -path '*/out/*' ! -path '*/target/*' \( -name Answers.antt -o -name Invariants.antt \) | wc -l | sed 's/^/-- 8 files of answers: /'
find crates -path '*/proofs/*.antt' ! -path '*/out/*' ! -path '*/target/*' ! -name Answers.antt ! -name Invariants.antt | xargs cat | grep -c . | sed 's/^/-- 8 lines of lemmas: /'
rm -f /tmp/places.$$
