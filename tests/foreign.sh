#!/usr/bin/env bash
# The C functions of arm64/foreign.c, on this machine: each at its edges (foreign.c), and a server and a client linked with them
# in place of the kit's.
set -euo pipefail
# shellcheck source=tests/built.bash
source "$(dirname "${BASH_SOURCE[0]}")/built.bash"
[[ -n $(type -P cc) ]] || { echo "foreign: skipped: cc isn't there"; exit 0; }
built upsd upsc demodriver
cd "$top"
folder=$(mktemp -d)
running=()
trap 'kill "${running[@]}" 2>/dev/null || true; rm -r "$folder"' EXIT
link() { cc -O2 -Wall -Wextra -Werror -o "$folder/$1" "${@:2}" arm64/foreign.c; }

link foreign tests/foreign.c
"$folder/foreign" word ''

# The gate keeps programs for its next run on this machine, but not their objects.
[[ -f crates/upsd/out/upsd.o && -f crates/upsc/out/upsc.o ]] || { echo 'foreign: the programs are skipped: those of an earlier gate have no upsd.o, upsc.o: make builds them'; exit 0; }
for program in upsd upsc; do link "$program" "crates/$program/out/$program.o"; done
"$folder/upsd" replay crates/upsd/data/first.txt | cmp - crates/upsd/stdout
crates/demodriver/out/demodriver "$folder/su" >"$folder/driver" 2>&1 &
running+=("$!")
printf '[su]\nsocket = %s\n' "$folder/su" >"$folder/ups"
: >"$folder/users"
"$folder/upsd" serve --ups "$folder/ups" --users "$folder/users" --listen 127.0.0.1:0 >"$folder/said" 2>"$folder/journal" &
running+=("$!")
for ((i = 0; i < 100; i++)); do
    ups=su@localhost:$(sed -n 's/.*listening on 127.0.0.1:\([0-9]*\).*/\1/p' "$folder/said")
    crates/upsc/out/upsc "$ups" >"$folder/want" 2>"$folder/fault" && break
    sleep 0.1
done
grep -q '^ups.status: OL' "$folder/want" || { cat "$folder/"{fault,journal}; exit 1; }
"$folder/upsc" "$ups" | cmp - "$folder/want"
echo 'foreign: a server and a client run with them'
