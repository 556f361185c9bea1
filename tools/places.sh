#!/bin/sh
# Lists the places of each point of docs/DESIGN-PASS.md in the code of the crates, and how many there are.
#     tools/places.sh [DIR]        with the lines:  LINES=1 tools/places.sh [DIR]
set -eu
cd "${1:-$(dirname "$0")/..}"
sources=$(sed -n 's/^\([a-z_]*\)\( staticlib\)\{0,1\}:.*/crates\/\1\/src/p' crates.txt)
all=0

places() { # POINT WHAT PATTERN
    found=$(grep -rnE --include=*.rt -e "$3" $sources | grep -vE '^[^:]*:[0-9]*:\s*(//|ghost use|use )' || true)
    n=$(printf '%s' "$found" | grep -c . || true)
    printf '%-2s %4s  %s\n' "$1" "$n" "$2"
    if [ "${LINES:-}" = 1 ] && [ "$n" != 0 ]; then printf '%s\n' "$found" | sed 's/^/        /'; fi
}

echo "point, places, what is looked for"
places 1 "enums of our own (each is read: has it the shape of Option or Result?)" '^\s*(pub(\(crate\))? )?enum [A-Z]'
places 1 "a number that stands for 'none' or 'too much'" '\b(BEYOND|TOO_FAR|UNDECLARED)\b|(Ok|Some|return|=>) ?\(?(usize|u64)::MAX|=> usize::MAX|^    (usize|u64)::MAX'
places 1 "constants that number kinds" '^\s*(pub(\(crate\))? )?const [A-Z]+: u(8|16) = [0-9]+;'
places 1 "uses of those constants" '\b(DECLARATION|VARIABLE|NUMBER|TEXT|PLUS|CONC|ASSIGN|IF|WHILE|SERIES|EMPTY|INTEGER|STRING)\b'
places 1 "an error or a value passed on by a match, where ? or a method says it" 'Err\((why|error|cause|fault|found|refusal|_)\) => (Err\(\1|Ok|Err\()|Ok\((all|n|value|x)\) => Ok\(|if let Err\([a-z]+\) = |^\s*Err\((cause|why|fault)\) => (self\.|\{)'
places 1 "a number that answers yes or no" 'fn made_by|-> u8$|made_by\('
places 2 "the calls of a shelf, in each make (those alike are twins)" '^    fn (kind|number|text|put_number|put_text|open|len|empty|lay_out|held|set_number)\('
places 2 "types of sizes and bindings" 'struct (Sizes|Binding|Declared|Sheet)\b'
places 2 "functions in pairs: level and nest, put, kinds and fields, begin and restart, meanings" 'fn (level|nest|put|put_kinds|put_fields|fill_kinds|fill_fields|fill|begin|restart|of_text|of_nodes|of_card|of_stop|blank_from|bytes_from|status_text|put_status|seen_text|put_look)\b'
places 2 "numbers of refusals, a function each" 'fn number\(self\)'
places 3 "while" '\bwhile [a-z]'
places 3 "for over a range" 'for [a-z_]+ in [^{]*\.\.'
places 3 "for with a place by enumerate" 'enumerate\(\)'
places 3 "a for that only asks whether all are so, or finds" 'for (b|k|e|d|node|\(i, b\)|\(i, node\)|\(i, word\)) in '
places 4 "equality, copying and conversion by hand" 'as u8 ==|as u8 <=|fn (same|copy|low|high|word|is_blank|at|node_at|is_end|is_help)\b'
places 4 "what a person reads, by a function of a match" 'fn (of_text|of_nodes|of_card|of_stop|meaning|kind_name|status_text|seen_text|answer_text|put_status|put_look|label|kind)\('
places 4 "a text read by hand" 'fn (number|field|node|grant|call|digit)\((word|text|b|deck)'
places 4 "types that derive Clone and Copy alone" '^#\[derive\(Clone, Copy\)\]'
places 5 "the word in hand stands in the text, in a requires or ensures" '(requires|ensures).*Stands text\.now'
places 5 "the deck stays, in an ensures" 'ensures deck \{'
places 5 "capacity or slots stay, in an ensures" 'ensures (capacity|slots|slots_stay|capacity_stays) \{ (S\.Shelf|slots self|capacity self|self\.new)'
places 5 "the tables are tied to the nodes" '(requires|ensures).*Tied'
places 5 "a ready player or course, in a requires" 'requires( ready)? \{ self\.(old|now)\.(course\.)?status ≡ Ready'
places 5 "parameters that travel together: text, at, token" 'text: &.?[a]? ?\[u8\], at: usize'
places 5 "parameters that travel together: text, names, out" 'names: &\[Entry'
places 5 "parameters that travel together: letters, nodes, v" 'nodes: &\[Node\]'
places 5 "parameters that travel together: shelf and deck" 'shelf: &S'
places 5 "parameters that travel together in the programs: heap, words, out; rt, file; heap, sheet" 'heap: Global|rt: &HostRuntime'
places 6 "arrays of a fixed length (each is read: is there a length beside it?)" '\[[A-Za-z0-9_:<>]+; [A-Z0-9a-z]+\]'
places 6 "a length or count beside a buffer" '^\s*(pub(\(crate\))? )?(count|len|size|used|declared|slots): u(8|16|size),'
places 6 "an index as an arrow" '(left|right|target|value|test|then|otherwise|body|statement|rest|to): u16,'
places 7 "a value that chooses which test or step runs" 'class: Class|Class::[A-Z][a-z]*(,|\))|fn has\(self, b'
places 7 "a command or option by its word" '^\s*"[a-z-]+"( \| "[a-z-]+")* =>'
printf '8  %4s  files of answers and invariants, of %s lines\n' "$(find crates -path '*/out/*' -prune -o -name Answers.antt -print -o -name Invariants.antt -print | wc -l)" "$(find crates -path '*/out/*' -prune -o \( -name Answers.antt -o -name Invariants.antt \) -print | xargs cat | wc -l)"
printf '8  %4s  answers\n' "$(find crates -path '*/out/*' -prune -o -name Answers.antt -print | xargs grep -hE '^[a-z][^ ]* .*= |^[a-z][^ ]* =' | wc -l)"
printf '8  %4s  files of lemmas, of %s lines\n' "$(ls crates/*/proofs/*.antt | wc -l)" "$(cat crates/*/proofs/*.antt | wc -l)"
