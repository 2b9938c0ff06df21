#!/usr/bin/env bash
# Tries that two misuses of strips do not compile, and that the compiler's message names what to do first: playing a strip
# that is not closed, and laying on a closed one. The right use of both is tried too, and has to compile. .ci/run calls this
# before the gate. The small programs are written to a folder of their own, outside this one, and removed.
set -euo pipefail
top=$(dirname "$(dirname "$(readlink -f "${BASH_SOURCE[0]}")")")
work=$(mktemp -d)
trap 'rm -rf "$work"' EXIT

# the crates that a strip stands on, without what was built of them
strip_crates="rows readings policy repeat books walk planner deferral strip"
mkdir -p "$work/crates"
for crate in $strip_crates; do
    grep -E "^$crate:" "$top/crates.txt"
    mkdir "$work/crates/$crate"
    cp -r "$top/crates/$crate/"{src,specs,proofs} "$work/crates/$crate/"
done >"$work/crates.txt"

# try NAME LINE..: writes a program with these lines in its body, tries it, and leaves what was said in $work/NAME.said. In the
# lines, `list` is a list and `memory` the memory of a strip.
try() {
    local name=$1 crate=$work/crates/$1
    shift
    mkdir -p "$crate/src"
    echo "$name: readings strip" >>"$work/crates.txt"
    {
        echo '#![tactic(auto)]'
        echo
        echo 'use readings::Readings;'
        echo 'use strip::{ClosedStrip, LayingStrip, Player};'
        echo
        echo 'fn main(_rt: HostRuntime) {}'
        echo
        echo 'pub fn used(list: &Readings, memory: &mut [u8]) {'
        printf '    %s\n' "$@"
        echo '}'
    } >"$crate/src/main.rt"
    (cd "$crate" && rt try) >"$work/$name.said" 2>&1
}

# fails NAME: ends with what was said of a program
fails() {
    echo "tools/misuse.sh: $1: $2" >&2
    cat "$work/$1.said" >&2
    exit 1
}

# refused NAME TEXT LINE..: such a program does not compile, and TEXT stands in what is said
refused() {
    local name=$1 text=$2
    shift 2
    if try "$name" "$@"; then fails "$name" 'it compiles'; fi
    grep -qF "$text" "$work/$name.said" || fails "$name" "not said: $text"
    echo "misuse $name: refused: $text"
}

try right_use \
    'let mut strip = LayingStrip::new(memory);' \
    'if strip.lay(list, 89).is_err() { return; }' \
    'let Ok(closed) = strip.close() else { return; };' \
    'let _player = Player::new(&closed);' \
    'let mut anew = LayingStrip::new(closed.take_apart());' \
    'let _again = anew.lay(list, 89);' || fails right_use 'it does not compile'
echo 'right use: compiles'

refused play_before_closing 'expected `&ClosedStrip' \
    'let strip = LayingStrip::new(memory);' \
    'let _player = Player::new(&strip);'

refused lay_on_a_closed_strip 'no method named `lay` found for type `ClosedStrip' \
    'let strip = LayingStrip::new(memory);' \
    'let Ok(mut closed) = strip.close() else { return; };' \
    'let _again = closed.lay(list, 89);'
