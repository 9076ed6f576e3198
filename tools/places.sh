#!/bin/bash
# Lists the places in src/ at which each point of docs/DESIGN-PASS.md looks, one command a point.
#
#     tools/places.sh          how many lines each command finds
#     tools/places.sh 3        the lines of the third
#
# It is run at the top of a checkout; what a line says decides whether it is a place.
cd "$(dirname "${BASH_SOURCE[0]}")/.." || exit 1
[ -n "$AT" ] && cd "$AT"
src="crates/*/src"

# 1. Own enums, options of refusals, yes or no in place of an error, flags as parameters, numbers that stand for something else.
point_1() { grep -rnE 'enum [A-Z]|Option<Refusal>|Result<bool>|\w+: bool,|unwrap_or\((usize::MAX|u32::MAX|ABSENT)\)|None => u32::MAX|Err\(AllocError\)' $src; }

# 2. Functions and types of one shape.
point_2() { grep -rnE 'fn \w+_at[<(]|fn (other_ids|options|parents|ids|rank|word|later_word|read_word|seed\w*|paint_\w+|ask_\w+|merge_base|octopus|line_length|field_length|blanks\w*|contains|all_same|find_\w+)[<(]|struct (Keyed|Dated)' $src; }

# 3. Loops over a condition or over numbers, and counting by hand.
point_3() { grep -rnE '^\s*(while|loop) |^\s*for \w+ in [0-9]|[-+]= 1;' $src; }

# 4. Equality, order, conversion and printing.
point_4() { grep -rnE 'impl.* (PartialEq|Eq|PartialOrd|Ord|Clone|Copy|Default|Display|Debug|From<.*>|TryFrom<.*>) for|fn (from|to)_\w+\(|fn (same|lower|order|narrow|above_zero|below_zero|of|is_newer|is_better|print\w*|id_of|placed|told|new|words|number|of_bits|to_bits|contains|all_same)[<(]' $src; }

# 5. Clauses that stand in three functions or more, word for word, with how often.
point_5() { find crates -path '*/src/*.rt' -not -path '*/out/*' -exec cat {} + | grep -oE '(requires|ensures)[* ].*\{.*\}' | sort | uniq -c | sort -rn | awk '$1 >= 3'; }

# 6. Numbers that say how much of a buffer is used, arrays, and buffers parted by hand.
point_6() { grep -rnE '\b(len|count|depth|found|n|live): usize|mut (len|count|depth|found|n|live)\b|\[[A-Za-z0-9_]+; [A-Za-z0-9_]+\]|split_at' $src; }

# 7. Functions handed on, and chains that choose by a text.
point_7() { grep -rnE '\bdyn |\bfn\(|: Fn|FnOnce\(|FnMut\(|impl Fn|if same\(' $src; }

# 8. Lines of proofs, and answers in them.
point_8() { find crates -name '*.antt' -path '*/proofs/*' -not -path '*/out/*' -exec cat {} + ; }

if [ -n "$1" ]; then
    "point_$1"
else
    for n in 1 2 3 4 5 6 7 8; do
        echo "point $n: $("point_$n" | wc -l)"
    done
    echo "answers: $(find crates -name Answers.antt -not -path '*/out/*' -exec cat {} + | grep -c '^pub ')"
fi
