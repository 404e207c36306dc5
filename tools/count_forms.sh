#!/bin/sh
# Counts, in the source as a commit has it, the lines at which older forms of the language may stand, by one pattern for each kind of place.
# tools/count_forms.sh COMMIT [-l]     (-l lists the lines)
commit=${1:?"a commit"}
count() {
    if [ "$list" = -l ]; then
        echo "== $1"
        git grep -n -E -e "$2" "$commit" -- "$3" | sed "s|^$commit:||"
    else
        printf '%-28s %s\n' "$1" "$(git grep -h -E -e "$2" "$commit" -- "$3" | wc -l)"
    fi
}
list=$2
src='crates/*/src/*.rt'
count 'flags and numbers' '-> bool|: bool\b|number: u8|const (NO_|NOTHING|HIDES|SHOWS|CAP)|-> u8$|\benum [A-Z]' "$src"
count 'loops' '^\s*(while|for|loop)\b' "$src"
count 'ranges that index' '^\s*for [a-z_]+ in 0\.\.|^\s*while ' "$src"
count 'casts' ' as (u8|u16|u32|usize)\b' "$src"
count 'conversions and printing' 'fn (refusal|of_[a-z]+|[a-z]+_name|print_[a-z]+|byte_at|fits_name)\b|impl fmt::|impl From' "$src"
count 'facts asked for' 'requires' "$src"
count 'model, slots, locus passed' 'model: &|held: &' "$src"
count 'fixed arrays' '\[[^]]+; ([0-9]+|[A-Z_]+)\]' "$src"
count 'counts beside arrays' '^\s*(pub(\(crate\))? )?(count|founders|alleles|persons): usize' "$src"
count 'named numbers' 'const [A-Z_]+: [a-z0-9]+ =' "$src"
count 'switches and closures' 'match .*\.(reader|call)\b|fn\(|dyn |impl Fn' "$src"
count 'answers' '^(pub )?[^ ]+ : goal\.' 'crates/*/proofs/*.antt'
