#!/usr/bin/env bash
# Counts, in src/ of every crate, the places of the points of docs/DESIGN-PASS.md: bash tools/design_counts.sh [ROOT]. With PLACES=1 it lists them.
set -u
cd "${1:-$(dirname "$0")/..}"
places() {
    local what=$1 pattern=$2 but=${3:-^$}
    local found
    found=$(grep -nE "$pattern" crates/*/src/*.rt | grep -vE ':\s*//' | grep -vE "$but")
    printf '%4d  %s\n' "$(printf '%s' "$found" | grep -c '')" "$what"
    if [ -n "${PLACES:-}" ]; then printf '%s\n' "$found" | sed 's/^/        /'; fi
}
echo '1 Option, Result, enums for numbers'
places '1a enums with a case for nothing or for a refusal' '^\s*(Refused|Missing)\b.*,$'
places '1b refusals passed as numbers: fields and parameters' '\brefusal: u32'
places '1c functions that answer with the number of a refusal' 'fn \w*(refusal|refused)\w*\(.*-> u32|fn (write|column|first|ground)\(.*-> u32|^\) -> u32$'
places '1d tests of such a number' 'refusal (!=|==|>) 0'
places '1e grounds written as numbers' '(ground|entries_refusal|slice_refusal)\([0-9]+|return 1[78];|refusal: (0|1[78])\b'
echo '2 twins'
places '2a functions' 'fn (binomials|summed_counts|same_naturals|same_integers|write_naturals|write_integers|with_natural|with_integer|side_unkept|file_side_unkept|refused)\('
places '2b types' 'struct (Filled\w*|LayerAnswer|Answer)\b'
echo '3 loops that count'
places '3a while and loop' '\b(while|loop)\b.*\{'
places '3b for over a range' '\bfor \w+ in [^{]*\.\.'
echo '4 by hand'
places '4a types with no derive but Clone and Copy' 'derive\(Clone, Copy\)\]'
places '4b fields compared one by one' '\.(assets|probability|correlation) (==|!=) '
places '4c conversions' 'fn (pattern_of|signed_of|magnitude|byte_of|word_at)\('
places '4d printing by write and write_number' '\bwrite_(number|field|integer|word)\('
echo '5 parameters that travel together'
places '5a the four slices of a store' 'low_significands: &' 'struct|pub low_significands'
places '5b the two slices of a side' '\bsignificands: &' 'low_|high_|pub significands'
places '5c n, p and rho, or p and rho' '\bp: u32, rho: u32|^\s+rho: u32,'
places '5d low and high rows' 'low: \[Kept; PLACES\]' 'pub low'
places '5e the slices spelled out in a contract' '(store|lent) low_significands|side_store \w*significands'
echo '6 buffers with a length beside them'
places '6a a place that is passed and answered' 'fn put_\w+\(.*usize'
places '6b a length or a count beside an array' 'pub length: usize|count: usize\) -> Reply'
places '6c an array spelled out as fields' '^pub struct (Records|Lengths)\('
echo '7 switches'
places '7a a match on which call or which part' 'match (part|library|call|calls|list|family)\b'
echo '8 answers'
printf '%4d  %s\n' "$(git ls-files 'crates/*/proofs/*Answers.antt' 'crates/*/proofs/*Invariants.antt' | wc -l)" 'files of answers and invariants'
printf '%4d  %s\n' "$(git ls-files 'crates/*/proofs/*Answers.antt' 'crates/*/proofs/*Invariants.antt' | xargs cat 2>/dev/null | grep -vcE '^\s*(--.*)?$')" 'their lines'
