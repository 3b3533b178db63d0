#!/bin/sh
# Counts the places that docs/DESIGN-PASS.md speaks of, in the sources of a commit: tools/places.sh COMMIT [-v]
# With -v it lists them. A pattern finds places to look at; which of them stay, and why, is in that page.
commit=${1:?usage: tools/places.sh COMMIT [-v]}
list=$2

places() { # what, pattern
    found=$(git grep -nE -e "$2" "$commit" -- ':(glob)crates/*/src/**')
    echo "$1: $(printf '%s' "$found" | grep -c .)"
    [ "$list" = -v ] && printf '%s\n' "$found"
}

twice() { # what, pattern of what to compare, how often at the least
    found=$(git grep -hoE -e "$2" "$commit" -- ':(glob)crates/*/src/**' ':(exclude,glob)crates/*_trial/**' | sort | uniq -c | awk -v least="$3" '$1 >= least')
    echo "$1: $(printf '%s' "$found" | grep -c .)"
    [ "$list" = -v ] && printf '%s\n' "$found"
}

proofs() { # what, pattern of the files, pattern of the lines
    lines=$(git ls-tree -r --name-only "$commit" | grep -E "$2" | sed "s/^/$commit:/" | xargs -r -n 1 git show | grep -cE "$3")
    echo "$1: $lines in $(git ls-tree -r --name-only "$commit" | grep -cE "$2") files"
}

places '1a functions that answer an enum with a case for success' '-> \(?(Code|CallCode)\b|, Code\)|, Code>'
places '1b enums with a case for success' '^ *Accepted,'
places '1c functions that answer a pair' '-> \('
places '1d arms that hand an Option or a Result on by hand' 'None => (None|false|0)\b|Some\([a-z_]+\) => Some|(Ok|Err)\(_\) => (None|true|false)'
places '1e numbers for a kind, a source or a free place' '^ *pub (opcode|source|numbers):|\[64; 4\]|== 64\b|64, 64, 64'
twice '2 names of functions that are defined twice' 'fn [a-z_]+' 2
places '3 loops over numbers, and loops with a condition' '^ *(while |loop |for [a-z_]+ in [0-9a-z_.]+\.\.)'
places '4a conversions and printing by hand' 'fn (of|opcode|number|mnemonic|is_accepted|digit_of|header_of|opcode_in|length_in|source_in|low_half|high_half|value_in|counting_from|lower)\('
places '4b casts' ' as (u8|u16|u32|u64|usize)\b'
twice '5a clauses that stand three times or more' '(requires|ensures)( [a-z_]+)? \{.*\}' 3
places '5b parameters that travel together' '(out: &mut \[u32\], (at|count)|start: usize, (k|count)|lanes: usize, depth: usize|count: usize, size: usize|^ *lanes: usize,$)'
places '6 arrays of a fixed length, and buffers that are lent to be written' '\[[A-Za-z0-9_: {}]+; ?[0-9]+\]|&(.a )?mut \['
places '7 enums of steps, and switches on them' 'enum (Stage|Call)\b|match (self\.stage|call)\b'
proofs '8a answers' '/Answers\.antt$' ': goal\.'
proofs '8b invariants' '/Invariants\.antt$' ': goal\.'
proofs '8c lemmas, but for the unfinished crates' '^crates/(message|packet|stream|hex_text|listing|ring|lanes|network|network_client|slot_network|packet_network|directory|directory_client|full_map|pointers)/proofs/[A-Za-z]*\.antt$' '^ *(pub )?(abbrev )?(pub )?[^ ]+ : '
