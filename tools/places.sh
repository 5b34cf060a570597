#!/usr/bin/env bash
# Lists the places in src/ that could take a newer form, point by point, and counts them; docs/DESIGN-PASS.md says what each point is.
# With an argument, 1 to 8, it prints the places of that point; with none, the counts alone. It reads only, and judges nothing: a place that
# stays has its reason beside it.
set -u
cd "$(dirname "$0")/.." || exit 2
sources() { find crates/*/src -name '*.rt' | sort; }
# look PATTERN: the lines of src/ that it fits, comments left out
look() { sources | xargs grep -nP "$1" | grep -vP '^[^:]+:\d+:\s*//'; }

place1() {
    # flags in a struct
    look '^\s+(pub )?[a-z_]+: bool,'
    # numbers that stand for a kind, a refusal, a part that may be missing, or an answer
    look '\b(number|shape|parts|choice|code)\b: (u8|u16|u32|usize)\b'
    look '^type [A-Z][a-z]+ = u(8|16|32|size);'
    look '^(pub )?fn (told|named|number|equate|[a-z]+_key|pairing_check_line)\(.*-> (u8|u16|u32|usize|Told)'
    look '(first|next): &.a \[u16\]|chosen: &(mut )?\[u16\]'
    # an answer that says by a bool whether it was done
    look 'pub fn (push|has_room)\b.*-> bool'
    # a refusal that is passed on by hand
    look 'Err\((fault|refusal|e)\) => Err\(|Ok\(_\) => Ok\(|Ok\(record\) => Ok|None => unreachable'
    # a refusal that is wrapped by hand
    look 'Layer::(Field|Line|Book)\([A-Z][a-z]+Cause::[A-Za-z]+\)\)?' | grep -v '=>'
}
place2() {
    # functions of one name in two places of src/, new, drop and main left out
    sources | xargs grep -nP '^\s*(pub(\(crate\))? )?(extern "C" )?fn [a-z_0-9]+' | sed -E 's/^([^:]+:[0-9]+):.*fn ([a-z_0-9]+).*/\2 \1/' |
        grep -vE '^(main|new|drop|cost_alone|cost_one|cost_two|is_below) ' | sort | awk '{n[$1]++; at[$1] = at[$1] "\n" $1 " " $2} END {for (k in n) if (n[k] > 1) print at[k]}' | grep . | sort
    # names that differ in a side, a size or a kind alone
    look 'fn (left|right|one|two|four|five|six|row_for|is_listed|enter|equate)_?(key|field|fields|leaves|towers|chain|tree|rising|falling)?\b.*\(' | grep -vP 'fn (enter|equate|one_step)\('
    # constants of one name in two places
    sources | xargs grep -nP '^const [A-Z_]+' | sed -E 's/^([^:]+:[0-9]+):const ([A-Z_]+).*/\2 \1/' | sort | awk '{n[$1]++; at[$1] = at[$1] "\n" $1 " " $2} END {for (k in n) if (n[k] > 1) print at[k]}' | grep . | sort
}
place3() {
    # loops over a range, and loops that are not over an iterator
    look '^\s*while (?!let Some)|^\s*while let Some\(.*(lines|marked|unmarked)|for [a-z_]+ in [a-z0-9_.()]+\.\.'
    # a place that is counted beside a loop
    look '^\s+(at|to|i|n|len|start|count|total|granted|sum|found\.[a-z]+|tally\.[a-z]+|self\.[a-z]+) (\+|-)= |= (granted|count|sum|total)\.saturating_add'
}
place4() {
    # equality, order, copying, conversion and printing by hand
    look 'fn (same|agree|matches|raw|of|word|number|told|named|both|is_below|signature|node_of|is_letter|is_digit|visible_byte|put_field|write_digits|as_bytes|padded)\('
    # a value copied field by field
    look '(cost|node): [a-z_.]+\[[a-z0-9]+\]\.(cost|node)'
    # an order by cases
    look 'a\.missing < b\.missing'
}
place5() {
    # clauses that stand in three or more contracts of a crate
    for c in crates/*/; do
        find "$c"src -name '*.rt' -exec cat {} + | grep -hoP '^\s*(requires|ensures)( [a-z_]+)? \{.*\}' | sed 's/^ *//' | sort | uniq -c | sort -rn | awk -v c="$c" '$1 >= 3 {print c ": " $0}'
    done
}
place6() {
    # buffers with a length or a place beside them, arrays of fixed size, indices in place of links
    look '(entries|bytes|rows|text): (&.a (mut )?)?\[|let (mut )?[a-z_]+ = \[[^]]*; [A-Z0-9a-z_]+\]|^\s+(pub )?(first|next|count|start|at|len): '
}
place7() {
    # a switch on what to do, or a table of functions
    look 'match (form|self|shape|rule|stop|kind) \{'
    look 'dyn |Box<|fn\('  | grep -vP '\bfn [a-z_]+|drop\(|fn main'
}
place8() {
    # answers, and lemmas of the crates' own
    find crates/*/proofs -name Answers.antt | xargs grep -hcP '^pub ' | paste -sd+ | bc
}
if [ $# -eq 0 ]; then
    for p in 1 2 3 4 5 6 7; do echo "$p: $(place$p | wc -l)"; done
    echo "8: $(place8) answers in $(find crates/*/proofs -name Answers.antt | wc -l) files, $(find crates/*/proofs -name '*.antt' | xargs cat | wc -l) lines of proof files"
else
    "place$1"
fi
