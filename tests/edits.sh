#!/usr/bin/env bash
# What tests/edits.py says of edits, over two small crates of its own: which are refused, and which aren't.
set -euo pipefail
top=$(cd "$(dirname "${BASH_SOURCE[0]}")/.." && pwd)
folder=$(mktemp -d)
trap 'rm -r "$folder"' EXIT
declare -i failed=0 cases=0

mkdir -p "$folder"/crates/{counting,unproved}/src
printf '%s\n' 'counting:' 'unproved:' >"$folder/crates.txt"
cp "$top/HANDLES" "$folder"

# A crate's root file, with these functions.
crate() {
    printf '%s\n' "//! A crate of a test." '#![tactic(auto)]' '' 'ghost use Rattle.std.specs.Prelude.{◌≡◌, ◌+◌, ◌≤◌};' \
        "${@:2}" >"$folder/crates/$1/src/lib.rt"
}

# A function of no argument, with what its contract says that it returns, and its body.
function_of() {
    printf '\n/// A number.\npub fn %s() -> u32\n    ensures { result ≡ %s }\n{\n    %s\n}' "$1" "$2" "$3"
}

# Adds an entry to a crate's list: what is wrong, the function, one text and another.
edit() { printf '%s\nsrc/lib.rt%s\n- %s\n+ %s\n\n' "$2" "${3:+, $3}" "$4" "$5" >>"$folder/crates/$1/edits.txt"; }

judge() {
    (cd "$folder" && python3 "$top/tests/edits.py" --anew "$@") >"$folder/said" 2>&1 || true
    rm "$folder"/crates/*/edits.txt
}

# Its last run said such a line.
says() {
    cases+=1
    grep -Eq "$2" "$folder/said" && return
    failed+=1
    printf 'edits: FAILED: %s: no line is %s; it said:\n' "$1" "$2"
    cat "$folder/said"
}

crate counting "$(function_of two 2 '1 + 1')" "$(function_of three 3 '2 + 1')" "$(function_of four 4 '3 + 1')" \
    "$(function_of six 6 'two() + four()')"
mkdir -p "$folder/crates/counting/proofs/four"
printf '%s\n' 'use Rattle.std.proofs.Common.{refl}' 'use Rattle.counting.proofs.four.Goals as goal' '' \
    'pub returns : goal.returns' 'returns c = refl' >"$folder/crates/counting/proofs/four/Answers.antt"
edit counting 'Two is three' two '    1 + 1' '    1 + 2'
edit counting 'Four is five' four '    3 + 1' '    3 + 2'
judge counting
says 'a wrong body is refused at its own function' 'counting: Two is three: refused: counting::two: '
says 'each of a round is judged by itself, and one of a proof by hand is named' \
    'counting: Four is five: refused, of a proof by hand: counting::four: '
says 'one round is enough' 'counting: 2 edits in 1 rounds'
says 'they are counted' '^edits: 2 refused, 0 failed$'
says 'and those of a proof by hand' '^edits: 1 refused of functions with a proof by hand$'

edit counting 'Two is three' two '    1 + 1' '    1 + 2'
edit counting 'Six in another order' six 'two() + four()' 'four() + two()'
edit counting 'Six is a text' six 'two() + four()' '"six"'
edit counting 'Text moved' three '    7 + 1' '    7 + 2'
edit counting 'Another function' five '    2 + 1' '    2 + 2'
edit counting 'No function is named' '' '2 + 1' '2 + 2'
judge
says 'an edit that changes nothing fails' '^edits: FAILED: counting: Six in another order$'
says 'an edit that does not compile fails' '^edits: FAILED: counting: Six is a text$'
says 'an edit whose text has moved fails' '^edits: FAILED: counting: Text moved \('
says 'an edit that names no function fails' '^edits: FAILED: counting: No function is named$'
says 'a round with an edit that does not compile is halved' '^edits: 1 refused, 5 failed$'

crate unproved "$(function_of one 1 '2')" "$(function_of two 2 'one() + 1')"
edit unproved 'Two is three' two 'one() + 1' 'one() + 2'
judge unproved
says 'a round in which a stranger fails counts for nothing' '^edits: FAILED: unproved: Two is three$'

((failed == 0)) || exit 1
echo "edits: ok: $cases cases"
