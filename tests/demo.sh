#!/usr/bin/env bash
# `make demo`: living data within 3 seconds, a power failure that passes by the very commands that it prints, how tracked orders
# end, and that nothing is left: no file, and no program. Its driver takes a dead one's place.
set -euo pipefail
# shellcheck source=tests/built.bash
source "$(dirname "${BASH_SOURCE[0]}")/built.bash"
built upsd upsc upsrw upscmd demodriver
cd "$top"
folder=$(mktemp -d)
demo=
trap '[[ -z $demo ]] || kill "$demo" 2>/dev/null || true; rm -r "$folder"' EXIT
failed=0 checks=0
fails() { printf 'demo: FAILED: %s\n' "$1"; failed=1; }
# The rest of the words succeed within 30 seconds: on a machine that is busy with other work, what takes one may take ten.
within() {
    checks=$((checks + 1))
    for _ in {1..300}; do
        "${@:2}" && return
        sleep 0.1
    done
    fails "$1"
    cat "$folder/said"
}
# The demonstration shows this.
shows() { within "no line $1" grep -qE "$1" "$folder/said"; }
# The command that was printed, as it stands there.
printed() { sed -n "s/^ *\(crates.*$1.*\)\$/\1/p" "$folder/said"; }
is_ok() {
    checks=$((checks + 1))
    [[ $(eval "$2") == OK ]] || fails "$1"
}
# A tracked order comes to this end.
ends() {
    local id
    id=$(eval "$3") || true
    within "$1" eval "[[ \$(crates/upsc/out/upsc --tracked $id $ups) == '$2' ]]"
}

mkdir "$folder/room"
: >"$folder/said"
TMPDIR=$folder/room make -s demo >"$folder/said" 2>"$folder/journal" &
demo=$!
begun=$SECONDS
shows '^ups\.status: OL$'
((SECONDS - begun <= 3)) || fails 'data come late'
shows '^battery\.charge: 100$'
shows '^ups\.load: 2[0-9]$'
shows 'upsrw.*OB LB'
ups=$(sed -n 's/^\$ upsc //p' "$folder/said") upsrw="crates/upsrw/out/upsrw -u admin -p demo"
# So that it need not wait until the battery is low.
ends 'a charge that is set' SUCCESS "$upsrw --track -s battery.charge.low=90 $ups"
is_ok 'the command that starts it' "$(printed test.failure.start)"
shows '^ups\.status: OB DISCHRG +battery\.charge: '
shows '^ups\.status: OB DISCHRG LB +battery\.charge: (9|8)'
is_ok 'a status that is set' "$(printed upsrw)"
shows '^ups\.status: OB LB +battery'
ends 'a status that is none' 'FAILED 2' "$upsrw --track -s ups.status=OX $ups"
ends 'the command that stops it' SUCCESS "$(printed test.failure.stop) --track"
shows '^ups\.status: OL CHRG +battery'
within 'the power is back' eval "tail -n 1 $folder/said | grep -qE '^ups\.status: OL +battery\.charge: 100\$'"

kill "$demo"
wait "$demo" 2>/dev/null || true
demo=
within 'files stay' eval "[[ -z \$(ls $folder/room) ]]"
within 'programs stay' eval "! grep -qs '$folder/roo[m]' /proc/[0-9]*/cmdline"
# The journal has the orders, each once, and no value.
ordered="upsd: demo: admin@127.0.0.1 ordered"
orders='SET VAR battery.charge.low,INSTCMD test.failure.start,SET VAR ups.status,SET VAR ups.status,INSTCMD test.failure.stop'
id='[0-9a-f-]{36}'
[[ $(sed -nE "s/^$ordered //; T; s/, tracked as $id\$//; p" "$folder/journal" | paste -sd ,) == "$orders" ]] || fails 'which orders were logged'
[[ $(sed -nE "s/^upsd: demo: order $id //p" "$folder/journal" | paste -sd ,) == 'succeeded,failed: 2,succeeded' ]] || fails 'how the tracked orders ended'
grep -vE "^(upsd: started: version [0-9.]+, UPSs: 1, at 127[.]0[.]0[.]1:[0-9]+, --maxage 15 --keep-places 0( --ids)?|upsd: demo: (driver connected|data good|status [A-Z ]+|order $id .*)|$ordered .*|make: .*)$" "$folder/journal" && fails 'what was logged'

# A driver that ends leaves its socket. The next one takes its place; no other one does while that lives.
driver=(crates/demodriver/out/demodriver "$folder/driver")
drives() {
    "${driver[@]}" >"$folder/$1" &
    demo=$!
    within "the $1 driver" grep -qs listening "$folder/$1"
}
drives first
kill "$demo"
wait "$demo" 2>/dev/null || true
[[ -S $folder/driver ]] || fails 'a socket is left'
drives second
# What can't be done is said in a line, by the path and the system's reason. Words that aren't one path have status 2.
answers() {
    local status=0 said
    said=$(timeout 30 crates/demodriver/out/demodriver "${@:3}" 2>&1) || status=$?
    [[ $said == "$1" && $status == "$2" ]] || fails "demodriver ${*:3}: $said [$status]"
    checks=$((checks + 1))
}
answers "demodriver: ${driver[1]}: Address already in use" 1 "${driver[1]}"
answers 'demodriver: /none/x: No such file or directory' 1 /none/x
answers 'usage: demodriver SOCKET' 0 --help
answers 'usage: demodriver SOCKET' 2
answers 'usage: demodriver SOCKET' 2 --nope
answers 'usage: demodriver SOCKET' 2 "${driver[1]}" more
((failed == 0)) && echo "demo: ok: $checks checks"
exit "$failed"
