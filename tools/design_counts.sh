#!/bin/sh
# Counts the places of docs/DESIGN-PASS.md in the code of a checkout: sh tools/design_counts.sh [FOLDER]. Each line is a point, a
# kind of place and how many there are; the patterns below are what counts as one.
cd "${1:-.}" || exit 1
code() { cat crates/*/src/*.rt; }
line() { printf '%s\t%s\t%s\n' "$1" "$3" "$2"; }
count() { line "$1" "$2" "$(code | grep -cE "$3")"; }
count 1 'enums of the shape of Option or Result' '^ *(pub )?enum (Verdict|Written|Value|Numbered|Reading|Step|Found|Numeral|Line|Count)\b'
count 1 'a verdict or an answer in a field beside the value' '^ *(pub )?(verdict|answer): [A-Z][A-Za-z]*(<[^>]*>)?,'
count 1 'refusals and kinds as numbers: constants and parameters' '^pub const [A-Z_]+: u8|(number|reason|kind|target): u8'
count 1 'a refusal handed on by hand' '(Refused|Err)\((refusal|_)\) =>|if let [A-Za-z:]*(Refused|Err)\(refusal\)'
count 2 'functions and types named for a type or a size' 'fn (hand_out_(bytes|entries|counts)|(sets|numbers)_length|write_(sets|numbers)|smaller|signed|of_(written|value)|refused_[a-z_]+|byte|entry|byte_at|figure_of|cell_of|cell)\b'
count 3 'loops over an index' 'for [a-z_]+ in [0-9a-z]+\.\.|^ *while '
count 4 'numbers of an enum and kinds of a number by hand' '=> [0-9]+,$|return Kind::'
count 4 'widening casts' 'as (u64|i64|usize)\b'
line 5 'clauses that stand in three or more functions' "$(code | grep -ohE 'requires( [a-z_0-9]+)? \{.*\}' | sed -E 's/requires [a-z_0-9]+ /requires /' | sort | uniq -c | awk '$1 >= 3' | wc -l)"
line 5 'functions in which these stand' "$(code | grep -ohE 'requires( [a-z_0-9]+)? \{.*\}' | sed -E 's/requires [a-z_0-9]+ /requires /' | sort | uniq -c | awk '$1 >= 3 {n += $1} END {print n + 0}')"
count 6 'a length in a field beside its array' '^ *(pub )?(count|length): usize,'
count 6 'an array cut at its length by hand' '&[a-z_]+\[\.\.(count|length|n|n \+ 1|filed|left)\]'
count 7 'a function chosen by a number, or a table of functions' 'fn\(|Fn\(|dyn '
line 8 'lines of Answers.antt and Invariants.antt' "$(cat crates/*/proofs/*/Answers.antt crates/*/proofs/*/*/Answers.antt crates/*/proofs/*/Invariants.antt crates/*/proofs/*/*/Invariants.antt 2>/dev/null | grep -vc '^[[:space:]]*$')"
line 8 'functions with such a file' "$(ls -d crates/*/proofs/*/ crates/*/proofs/*/*/ 2>/dev/null | while read -r d; do ls "$d"*.antt 2>/dev/null | head -1; done | wc -l)"
