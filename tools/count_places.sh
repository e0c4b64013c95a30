#!/usr/bin/env bash
# Counts, in the sources of crates/, the places where an older form may stand, one line of output for each point of docs/DESIGN-PASS.md.
# Usage: tools/count_places.sh [-l]   with -l it lists the places too. Run at the top of the repository.
set -euo pipefail
cd "$(dirname "$0")/.."
list=${1:-}
src() { ls crates/*/src/*.rt; }
show() { # name, pattern
    local found
    found=$(src | xargs grep -nE "$2" | grep -vE ':[0-9]+: *//' || true)
    printf '%-3s %4d  %s\n' "$1" "$(printf '%s' "$found" | grep -c . || true)" "$3"
    if [ "$list" = -l ] && [ -n "$found" ]; then printf '%s\n' "$found" | sed 's/^/        /' | cut -c1-180; fi
}
show 1a '\) -> Option<Refusal>|Result<[^,]*, u(8|16|32|64)>|Option<Option<' 'a refusal as an Option, a number as an error, an Option in an Option'
show 1b '^ *[0-7] => (Some|Ok|read_)|form: [0-9]|(form|kind): u8|form <= 2' 'numbers for kinds or forms'
show 1c '&mut.*\) -> bool|first: u64,|minus: bool' 'a bool beside places that are written, a value beside what says whether it counts'
show 2  'fn (put|get|le)_u(32|64)|fn (push|pull)_names|fn find_in_|fn low_bits|fn low_ones|fn is_set|fn (after|from|up_to)\(|fn number\(|fn key_of|fn under_mark|fn max_minus_min\(|fn (least|greatest)_of|impl Whole for|% 2 == 1' 'functions or tests that differ only in a type, a size or a constant, or stand twice'
show 3a 'while ' 'while loops'
show 3b 'for [a-z_]+ in [^{]*\.\.' 'loops over a range'
show 4  'fn (from_number|number|below|same|of_cell|to_cell|is_member|comes_before|is_comma|is_thirteen|low_first|to_bytes|kind_of_two|kind_of_three)\b' 'equality, order, conversion by hand'
show 5a 'requires( [a-z0-9_]+)? \{ (Sound|CleanView|Measured) ' 'a fact about a view or its statistics as a clause'
show 5b '\(meanings bank\.now\)|meanings bank\.now\) < 9|signed \(number_of (kind|view\.kind)\) ≡ T' 'a fact about a bank, or about a kind beside a type, as a clause'
show 5c 'requires( [a-z0-9_]+)? \{ (rows|stored\.rows|n|length (cells|distances|values)\.(now|old)) ≤ (131072|64) \}' 'a bound on rows as a clause'
show 5d 'has_blank: bool|cells[01]: &mut' 'parameters that travel together'
show 6  'places: \[|pub len: usize' 'a buffer with a length beside it'
show 7  'if i == 0 \{' 'a switch on which to ask'
