#!/usr/bin/env bash
# Counts, at the top of a checkout, the candidates for each point of docs/DESIGN-PASS.md in the code of the library
# crates, the program and the tests (crates/*/src). With -l it lists the lines as well.
list=$1
count() {
    local what=$1
    local lines
    lines=$(cat)
    printf '%4d  %s\n' "$(printf '%s' "$lines" | grep -c '')" "$what"
    if [ "$list" = -l ]; then printf '%s\n' "$lines" | sed 's/^/        /'; fi
}
sources() { find crates/*/src -name '*.rt' | sort; }
seek() { sources | xargs grep -nE "$@"; }

echo 'point 1: own results, flags, numbers for kinds and refusals'
seek '^\s*(pub )?enum ' | count 'enums of the repository, each read for the shape of an Option or a Result'
seek '^\s+(pub )?[a-z_]+: bool,' | count 'flags in a struct'
seek '\b(form|degree|order|number|kind|asked|flaw|layer): *(u8|u16|usize|\(u8, u8\))|Question\(u8' | count 'numbers for a form, a degree, an order, a kind or a refusal'
seek '(Some\(_\)|Ok\(_\)|Ok\(\(\)\)) => (true|false|Ok)|Err\(([a-z]+)\) => Err\(' | count 'arms that turn a result over by hand'
echo 'point 2: twins'
copy=$(mktemp -d)
for f in $(sources); do mkdir -p "$copy/$(dirname "$f")"; cp "$f" "$copy/${f%.rt}.rs"; done
duplicates --repo "$copy" --most 60 --min-lines 5 | grep -E '^D[0-9]' | count 'pairs of places that share five lines or more, or their shape'
rm -rf "$copy"
sources | grep -v crates/checks/ | xargs grep -nE '\b(1024|16384|16385)\b' | grep -vE 'requires|ensures|ghost|//' | count 'places of the limits 1,024 and 16,384 in code'
seek '\b(0|2) \| (2|3) \| 3|^\s+251 =>|TwoFiftyOne\b' | grep -v crates/checks/ | count 'lines that name the fields'
cat crates/*/specs/*.antt | grep -cE '^[a-z_]+ (\w+ )*\((Field b|Filled v|Pad v|Drawn s|Question \w+ \w+|First t|Second t)\)|^[a-z]+ group\.' | sed 's/$/  rows of tables over the records or their groups, in specs/; s/^/ /'
echo 'point 3: loops'
seek '^\s*(for|while|loop)\b' | count 'loops'
seek 'for [a-z]+ in 0\.\.' | count 'of them over a range of numbers'
seek '^\s*while ' | count 'of them with a condition'
seek 'else \{ (false|0) \}|^\s+if [a-z.]+ < [a-z.]+len\(\)' | count 'tests of an index by hand'
echo 'point 4: equality, order, conversion, printing by hand'
seek 'as u8 [<>=!]+ |[<>=!]+ [a-z_():]+ as u8|Group::[A-Z][a-z]+ as u8' | count 'comparisons of enums as numbers'
seek '\.rank\(\) *(==|<) |have (==|<) want' | grep -v crates/checks/ | count 'comparisons of cells by rank'
seek '^fn (number_of|form_of|flaw_of|term)\b|^pub fn (form_of|top_of)\b' | count 'conversions by a function of their own'
seek '\+ 48|n / 10' | count 'lines that print digits'
echo 'point 5: shared facts and parameters'
python3 "$(dirname "$0")/facts.py" | grep -E '^([3-9]|1[0-9]) require' | count 'facts that three functions or more require'
python3 "$(dirname "$0")/facts.py" | grep -E ' take ' | count 'pairs of parameters that three functions or more take'
echo 'point 6: buffers, parallel arrays, searches'
sources | grep -v crates/checks/ | xargs grep -nE '^\s+(pub )?[a-z_]+: \[[A-Za-z0-9]+; ' | count 'arrays in a struct'
seek 'let mid = |low \+ \(high - low\) / 2' | count 'searches by halving'
echo 'point 7: switches on a step, tables of functions'
seek '\bfn\(|\bdyn |\[fn|\b(step|phase|mode|state): (u8|u16|usize)' | count 'function pointers, dyn values, numbers of steps'
echo 'point 8: proofs'
for c in $(cut -d: -f1 crates.txt | grep -v '^#' | cut -d' ' -f1); do
    answers=$(find crates/$c/proofs -name Answers.antt 2>/dev/null)
    printf '      %-10s answers %3d in %2d files, %4d lines; lemma files %4d lines\n' "$c" \
        "$(cat $answers /dev/null | grep -cE '^pub \S+ : goal\.')" "$(printf '%s' "$answers" | grep -c '')" \
        "$(cat $answers /dev/null | wc -l)" "$(cat $(find crates/$c/proofs -maxdepth 1 -name '*.antt' 2>/dev/null) /dev/null | wc -l)"
done
