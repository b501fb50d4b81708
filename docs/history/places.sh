# Counts the places that the page docs/history/DESIGN-PASS.md speaks of: sh docs/history/places.sh, at the top of the repository. With -v it
# prints them.
here=$(dirname "$0")
show=${1:+cat}
say() { name=$1; shift; found=$(grep -nE "$@" crates/*/src/*.rt); echo "$name: $(printf '%s' "$found" | grep -c .)"; [ "$show" ] && printf '%s\n' "$found"; }

say "1 numbers of kinds" '\b(kind|class|mode|operation): (u8|[0-9]+)|\.(mode|operation) == [0-9]|class <= [0-9]|let \(kind, second\)'
say "1 flags in place of a case" '\b(on|rearm|wanted): bool|fn (append|process)\b.*-> bool|^    On\('
echo "2 $(python3 "$here/twins.py" 0.85 | tail -1)"
[ "$show" ] && python3 "$here/twins.py" 0.85
say "3 loops over numbers" 'for [a-z_]+ in .*\.\.'
say "3 loops that count by hand" '\bwhile [^l]|\bloop \{'
say "4 yes and no by a match" '=> (true|false),'
say "4 conversions and answers passed on by a match" 'match self\.(kind|class|mode|operation)\b|None => None|Ok\(\(\)\) => Ok|Err\(fault\) => Err|None => return (None|false)'
say "5 bounds of a place" 'requires.*place (<|≤) 2 \^'
say "5 facts joined in one clause" 'requires \{.* × '
say "5 a process and a location" 'process: (usize|u8), location: (usize|u8)|p: usize, l: usize|place: \(u8, u8\)|\(process, location\) =|let process = usize|^    (p|process): (usize|u8),$'
say "5 tests that a location can be" '< (8|limits::PROCESSES) && [a-z]+ < (16|LOCATIONS)'
say "5 a heap beside a text" '^    heap: Global,|\(heap: Global'
say "6 arrays" '\[[A-Za-z0-9]+; [A-Za-z0-9:_]+\]'
say "7 switches on which test to run" 'Sort::|wanted: bool'
echo "8 functions with answers: $(git ls-files crates | grep -c Answers.antt), lines in proofs: $(git ls-files crates | grep "/proofs/.*antt" | xargs cat | wc -l)"
