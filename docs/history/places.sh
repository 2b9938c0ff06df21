#!/usr/bin/env bash
# Lists the places in src/ that the design pass looks at, by point, with their number. Run it at the top of a checkout;
# `bash tools/places.sh` lists them, `bash tools/places.sh -c` only counts. docs/DESIGN-PASS.md has the counts and what
# became of each place.
set -uo pipefail
cd "$(dirname "$0")/.." || exit 1
only_count=${1:-}

# found LABEL PATTERN: the lines of code, comments left out, that match
found() {
    local lines
    lines=$(grep -rnE --include='*.rt' -- "$2" crates/*/src | grep -vE '^[^:]+:[0-9]+: *//')
    printf '%-58s %s\n' "$1" "$(printf '%s' "$lines" | grep -c '')"
    [ "$only_count" = -c ] || { [ -z "$lines" ] || printf '%s\n' "$lines" | sed 's/^/    /'; }
}

found '1a enums' '^ *(pub(\(crate\))? )?enum '
found '1b flags in structs' '^ *(pub(\(crate\))? )?[a-z_]+: bool,'
found '1c an Option whose Some is an error' '-> Option<(Fault|Refusal|Self::Fault|Found<)'
found '1d a number for a kind' '^ *(pub(\(crate\))? )?(used|kind|state|mode): u'
found '1e a number with 0 for none' '-> (u8|\(u16, u8\))|Result<u8,|before: u16|finishes: (&mut )?\[u16|-> \[u16'
found '2a fixed memory and a count, each with its own part' 'fn filled|^    (rows|items): \[[A-Za-z]+; 16\]'
found '2b a function over this that another type has too' 'fn (kept_rows|half_half|new)\(.*(given|list|timings)'
found '3a loops' '^ *(for .* in |while |loop )'
found '3b of them, by a range of indices' '^ *for [a-z]+ in \(?[0-9a-z_]+\.\.'
found '3c of them, that end early with a yes or no' '^ *return (true|false);'
found '4a same, copy, of, number' 'fn (same[a-z_]*|copy|of|number|eq|clone|from|fmt)(<|\()'
found '4b casts' ' as (u8|u16|u32|u64|usize)'
found '5 facts asked of callers' '^ *requires '
found '6a fixed arrays' '; (16|3)\]'
found '6b a count beside them' '^ *(pub )?count: usize'
found '6c a list searched by hand' '^ *if .*\.(id|has_id).*\{$'
found '7 a step chosen by an enum' 'fn [a-z_]+\(.*step: Step|match self\.run|fn (title|expected|run)\(self\)'
