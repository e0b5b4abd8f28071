#!/bin/sh
# Lists the places that docs/DESIGN-PASS.md counts, a heading for each point. Run at the top of the repository.
src="$(git ls-files crates | grep '/src/.*\.rt$' | grep -v '_tests/\|/worked' | sort)"

echo "== 1. own enums; refusals and kinds as numbers; flags beside a value"
grep -nE '^ *(pub(\(crate\))? )?enum ' $src
grep -nE '(number|cause|flaw): u8' $src
grep -nE -A1 'record: &mut Row\) -> bool|-> \(Option' $src | grep -nE 'bool|Option'

echo "== 2. twins: pairs of the same shape, six lines or more"
copy="$(mktemp -d)"
for f in $src; do mkdir -p "$copy/$(dirname "$f")"; cp "$f" "$copy/${f%.rt}.rs"; done
duplicates --repo "$copy" --most 100
rm -r "$copy"

echo "== 3. counted loops"
grep -nE '^ *(.[a-z]+: )?(for [a-z_]+ in [^{]*\.\.|while |loop )' $src

echo "== 4. comparison and conversion by hand"
grep -nE '^impl (PartialEq|Eq|PartialOrd|Ord|Clone|Copy|Default) ' $src
grep -nE 'fn (number|retold|phase_of|length_of|is_lower|same|blank)\(' $src
grep -nE 'None => None|Some\((.*)\) => Some\(|Ok\(\(\)\) => Ok|Ok\([a-z]+\) => Ok\([a-z]+\)|Err\([a-z_]+\) => Err|Err\(_\) => (Err|unreachable|Vec)' $src

echo "== 5. facts that three or more contracts repeat; functions of six parameters or more"
grep -hoE '^ *requires.*' $src | sed -E 's/^ *requires ([a-z_]+ )?//' | sort | uniq -c | sort -rn | awk '$1 >= 3'
awk 'FNR==1{open=0} /fn [a-z_]+.*\($/ {open=1; n=0; at=FILENAME":"FNR; next} open && /^ *\)/ {if (n>=6) print at": "n" parameters"; open=0} open && /,$/ {n++}' $src
awk '/fn [a-z_]+.*\(.*\)/ {s=$0; n=gsub(/: /,": ",s); if (n>=6) print FILENAME":"FNR": one line"}' $src

echo "== 6. lengths beside buffers, parallel vectors, places found by hand"
grep -nE '^ *(pub )?(len|at|places|mask): usize,|: \[u16; LONGEST\]|^ *(earlier|heads|table|entries|lines|items): (Vec|VecDeque|BinaryHeap)' $src

echo "== 7. switches on the step to run, tables of functions"
grep -nE 'all: bool|: fn\(|dyn |Box<' $src

echo "== 8. answers and lemmas"
proofs="$(git ls-files crates | grep '/proofs/.*\.antt$')"
cat $proofs | wc -l
echo "$proofs" | grep -c '/Answers.antt$'
echo "$proofs" | grep '/Answers.antt$' | xargs grep -hoE '^pub [A-Za-z_-]+ : ' | wc -l
