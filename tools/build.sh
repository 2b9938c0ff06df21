# shellcheck shell=bash
# Builds the proved programs of this repository where they are missing or older than their sources. ./rehearse, ./examples,
# ./read-show, ./write-show and bench/run source it; each sets `me`, its name in messages, first.
set -euo pipefail

me=${me-$0}
top=$(dirname "$(dirname "$(readlink -f "${BASH_SOURCE[0]}")")")

# fail STATUS LINE..: ends the script with these lines
fail() {
    local status=$1
    shift
    printf '%s\n' "$@" >&2
    exit "$status"
}

# take_input FILE: the script then reads this file as its standard input; ends it where the file cannot be read
take_input() {
    [ -e "$1" ] || fail 1 "$me: there is no file '$1'"
    [ ! -d "$1" ] || fail 1 "$me: '$1' is a folder"
    [ -r "$1" ] || fail 1 "$me: '$1' cannot be read"
    exec <"$1"
}

# program_of NAME: the path of a crate's program
program_of() {
    echo "$top/crates/$1/out/$1"
}

# crates_of NAME: the crates of this repository that a crate stands on, and the crate, one a line. They are those that its
# line in crates.txt names, and those that their lines name; a name without a line is a library of the kit.
crates_of() {
    awk -v crate="$1" '
        function visit(name, words, count, k) {
            if (name in seen || !(name in uses)) return
            seen[name] = 1
            print name
            count = split(uses[name], words, " ")
            for (k = 1; k <= count; k++) visit(words[k])
        }
        { sub(/#.*/, "") }
        match($0, /:/) {
            split(substr($0, 1, RSTART - 1), left, " ")
            uses[left[1]] = substr($0, RSTART + 1)
        }
        END { visit(crate) }
    ' "$top/crates.txt"
}

# must_build NAME: whether there is no program, or crates.txt or a source is newer than it. A folder is newer once a file in
# it was added or removed.
must_build() {
    local program crate folder places=("$top/crates.txt")
    program=$(program_of "$1")
    [ -x "$program" ] || return 0
    for crate in $(crates_of "$1"); do
        for folder in "$top/crates/$crate"/{src,specs,proofs}; do
            [ ! -d "$folder" ] || places+=("$folder")
        done
    done
    [ -n "$(find "${places[@]}" -newer "$program" -print -quit)" ]
}

# check_rt NAME..: ends the script where one of these programs has to be built and there is no rt
check_rt() {
    local name
    for name in "$@"; do
        if must_build "$name" && ! command -v rt >/dev/null; then
            fail 1 "$me: the program $name has to be built, and rt is not on the path"
        fi
    done
}

# tell_progress NAME..: of the lines that rt writes, tells the crate that it comes to, one line a crate of these names
tell_progress() {
    local line name last='' names=" $* "
    local come='^(rt: chose --jobs [0-9]+ for |[a-z]+ )([a-z0-9_]+)(::.*)?$'
    while IFS= read -r line; do
        if [[ $line == 'rt: waiting for '* ]]; then
            echo "$line" >&2
        elif [[ $line =~ $come ]]; then
            name=${BASH_REMATCH[2]}
            if [[ $name != "$last" && $names == *" $name "* ]]; then
                echo "$name .." >&2
                last=$name
            fi
        fi
    done
}

# last_lines LOG: the last lines of a log, but for those that only count or say what is proved, and details of a goal
last_lines() {
    grep -vE '^(logic|statements|library|crate|axioms|so far:) |^only=|: proved( where .*)?$|^ |^$' "$1" | tail -n 15
}

# build NAME [WORD..]: builds a crate's program if it has to be built. What rt says goes to a log. Where rt fails, the script
# ends, and runs no older program. The words are the arguments with which the program ends well on empty input.
build() {
    local name=$1 program folder log shown crates began
    shift
    must_build "$name" || return 0
    check_rt "$name"
    program=$(program_of "$name")
    folder=$(dirname "$program")
    log=$folder/build.log
    shown=${log#"$PWD"/}
    mapfile -t crates < <(crates_of "$name")
    [ ${#crates[@]} -gt 0 ] || fail 1 "$me: crates.txt has no line for $name"
    mkdir -p "$folder"
    echo "$me: building the program $name; what rt says goes to $shown" >&2
    began=$(mktemp "$folder/began.XXXXXX")
    : >"$log"
    # `rt run` builds a program and runs it, here on empty input
    if ! (cd "$top/crates/$name" && rt run -- "$@") </dev/null 2>&1 | tee -a "$log" | tell_progress "${crates[@]}" ||
        [ ! -x "$program" ]; then
        rm -f "$began"
        fail 1 "$me: the program $name was not built; $shown ends with" "$(last_lines "$log")"
    fi
    # a source that was changed since the build began is newer than the program
    touch -r "$began" "$program"
    rm -f "$began"
}
