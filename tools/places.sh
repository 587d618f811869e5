#!/bin/bash
# Lists the lines of src/ among which the places of docs/DESIGN-PASS.md are found, and how many there are.
#   bash tools/places.sh [COMMIT] [POINT]     COMMIT: what is looked at (HEAD); POINT: 1 to 8, and its lines are printed
# The lines are found by their form, so most points list more than the places: the page says which of them are places.
set -u
commit=${1:-HEAD}
point=${2:-}
tree=$(mktemp -d)
trap 'rm -rf "$tree"' EXIT
git archive "$commit" crates | tar -x -C "$tree"
cd "$tree" || exit 1

lines() {
    grep -rnE --include='*.rt' "$1" crates/*/src | grep -vE ':[0-9]+:\s*(//|ghost use|use )'
}

show() {
    local found
    found=$(lines "$2")
    echo "point $1: $(printf '%s' "$found" | grep -c '') lines of src/: $3"
    if [ "$point" = "$1" ]; then printf '%s\n' "$found"; fi
}

show 1 '\bbool\b|^ *(pub(\([a-z]+\))? )?enum |Err\(_\) =>|None => (None|Err|return)|Some\([a-z]+\) => (Some|Ok)|: (u8|u32|u64),? *//.*(none|why|whether)|-> u8' 'bool, own enums, Option and Result turned by hand, numbers that say which'
show 2 'fn \w*(leaf|leaves|node|nodes|row|rows|table|word|words|pair|none|one|two|three)\b|fn (load|store|read|write|get|put)\w*|struct (Row|Table|Leaf|Node|Visit|Branch|Step|Stack|Path|Meter)\w*' 'functions and types named for one of several sorts'
show 3 '\bwhile\b|\bfor \w+ in \(?[0-9a-z_]+\.\.|\[(i|j|n|d|at|k)( as usize)?\]' 'while, for over numbers, an index by a counter'
show 4 'fn (of|op|eq|ne|cmp|is_same|asks_same|told|done|word|pair|fmt|write|parse|name|signed|number|from\w*|into\w*|try_\w*)\b|\.(0|1) ==' 'conversions, comparisons and printing'
show 5 '(requires|ensures).*×' 'clauses that join facts'
show 6 '\[[^]]*; *[A-Za-z0-9_:]+\]|\b(len|count|depth|spare|top): (usize|u32)|&'"'"'?[a-z]* ?(mut )?\[(u32|u64|Call|Note|Reply)\]' 'arrays, lengths beside, slices'
show 7 '\b(leaves|gap|merged): bool|match .*height|height ==|match o \{|match code' 'what chooses a step'
echo "point 8: $(find crates/*/proofs -name '*.antt' | wc -l) files, $(find crates/*/proofs -name '*.antt' | xargs cat | wc -l) lines of proofs/; $(find crates/*/proofs -name Answers.antt | xargs grep -hE '^pub ' | wc -l) answers, $(find crates/*/proofs -maxdepth 1 -name '*.antt' | xargs grep -hE '^ *pub .* : ' | wc -l) lemmas"
