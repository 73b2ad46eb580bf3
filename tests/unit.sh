#!/usr/bin/env bash
# What goes with the unit: what it does before a start; `tools/started`, which says whether the start went well; `tools/metrics`, at
# a server with a UPS whose data come after a second, one whose data don't come, and one without a driver, and at odd servers; the
# rule for a server that is away; `tools/drill`.
set -euo pipefail
# shellcheck source=tests/built.bash
source "$(dirname "${BASH_SOURCE[0]}")/built.bash"
built upsd
folder=$(mktemp -d)
running=()
trap 'kill "${running[@]}" 2>/dev/null || true; rm -r "$folder"' EXIT
cd "$folder"

checks=0
ok() { checks=$((checks + 1)); }
mkdir bin
cat >bin/journalctl <<'SH'
#!/bin/sh
echo "$*" >>asked
case "$*" in
*-15min) printf 'upsd: %s\n' 'sent away: 2001:db8::9: 12' 'sent away: other addresses: 1' '192.0.2.1 gave way to 192.0.2.7 after 312 s of silence' 'su: mon@192.0.2.1 logged out: it gave way' 'su: status sent away: 5' 'su: lines of the driver refused: 3, the last one: bad words' 'b: lines of the driver refused: 2, the last one: too long' 'su: lines of the driver refused: 4, the last one: bad words' ;;
*-g*) echo "line of $INVOCATION_ID" ;;
esac
SH
chmod +x bin/journalctl
metrics() { PATH=$folder/bin:$PATH "$top/tools/metrics" "$@"; }
for kind in short endless; do
    python3 "$top/tests/unit_peers.py" $kind >$kind.port 2>/dev/null &
    running+=("$!")
done
: >table
python3 "$top/tests/unit_peers.py" table table >table.port 2>/dev/null &
running+=("$!")
for ups in good stale; do
    python3 "$top/tests/unit_peers.py" $ups &
    running+=("$!")
done
until [[ -S good && -S stale ]]; do sleep 0.05; done
: >users
# Starts a server of these UPSs, and leaves its id and address.
serve() {
    for ups in "$@"; do printf '[%s]\nsocket = %s\n' "$ups" "$folder/$ups"; done >upses.conf
    : >said
    "$top/crates/upsd/out/upsd" serve --ups upses.conf --users users --listen 127.0.0.1:0 >said 2>journal &
    server=$!
    running+=("$server")
    until grep -q listening said; do sleep 0.05; done
    address=$(sed -n 's/^upsd: listening on //p' said)
}
started() { MAINPID=$1 LISTEN=$2 NUT_CONFPATH=$folder "$top/tools/started"; }

printf '[good]\n  driver = x\n[more] # by and by\n' >ups.conf
begun=${EPOCHREALTIME/./}
serve good gone
[[ $(started "$server" "$address") == "upsd: more: in $folder/ups.conf, and not in the list of UPSs" ]] && ok
took=$((${EPOCHREALTIME/./} - begun))
((took > 1000000 && took < 10000000)) && ok
first=$address
serve good stale gone
begun=$SECONDS
metrics "127.0.0.1:$(cat endless.port)" >endless 2>/dev/null &
running+=("$!")
started "$server" "$address" >/dev/null && ((SECONDS - begun >= 9)) && ok
exec {one}<>"/dev/tcp/${address%:*}/${address#*:}" {two}<>"/dev/tcp/${address%:*}/${address#*:}"
metrics "$address" | grep -v '^ups_time_seconds ' >metrics
exec {one}>&- {two}>&-
diff "$top/tests/scripts/metrics" metrics && ok
wait "${running[-1]}" && grep -q '^ups_server_up 0$' endless && ((SECONDS - begun <= 30)) && ok
[[ $(metrics "127.0.0.1:$(cat short.port)") == *'ups_b_c{ups="a\"b"} 5'* ]] && ok
# The server has ended, and another one has the port.
kill "$server"
wait "$server" || true
begun=$SECONDS
if started "$server" "$first"; then exit 1; fi
((SECONDS - begun < 3)) && ok
metrics "$address" 2>/dev/null >away || true
grep -q '^ups_server_up 0$' away && ok
# A server that refuses, that has no place, that breaks a line off or counts oddly; at an IPv6 address, too. None is a state of a UPS.
is_away() {
    metrics "${2-127.0.0.1:$(cat table.port)}" >said 2>fault
    diff <(sed 's/[0-9.]*$//' said) <(sed 's/[0-9.]*$//' away) && [[ $(cat fault) == "metrics: ${2-127.0.0.1:$(cat table.port)}: $1" ]] && ok
}
echo 'LIST UPS|ERR ACCESS-DENIED' >table
is_away 'LIST UPS: ERR ACCESS-DENIED'
echo 'LIST UPS|' >table
is_away 'closed before its answer: are all places taken?'
is_away 'closed before its answer: are all places taken?' "[::1]:$(cat table.port)"
printf '%s\n' 'LIST UPS|BEGIN LIST UPS\nUPS su "x"\nEND LIST UPS' 'LIST VAR "su"|BEGIN LIST VAR su\nVAR su ups.load "5"\nEND LIST VAR su' 'GET NUMLOGINS "su"|NUMLOGINS su 3}' >table
metrics "[::1]:$(cat table.port)" >said && grep -q '^ups_load{ups="su"} 5$' said && ! grep -q ups_logins said && ok
for word in :99999 127.0.0.1:99999 '[::1]x' localhost:abc ''; do
    status=0
    metrics "$word" >said 2>fault || status=$?
    [[ $status == 2 && ! -s said && $(cat fault) == "metrics: $word: not HOST[:PORT]" ]] && ok
done
# Each rule is about what there is.
for name in $(grep -o '\<ups_[a-z_]*' "$top/examples/upsd-alerts.yml" | sort -u); do grep -q "^${name}[ {]" metrics away || echo "alerts: $name"; done | cmp - /dev/null && ok
[[ $(grep -A 1 'alert: NearlyFull' "$top/examples/upsd-alerts.yml") == *ups_server_clients* && $(grep -A 1 'alert: ForcedShutdown' "$top/examples/upsd-alerts.yml") == *FSD* ]] && ok
# The rule for that is about what there is then, and names no UPS.
rule=$(grep -A 5 'alert: NoServer' "$top/examples/upsd-alerts.yml")
[[ $(grep -o '\<ups_[a-z_]*' <<<"$rule" | sort) == "$(sed -n 's/^\(ups_[a-z_]*\) .*/\1/p' away | sort)" && $rule != *labels.ups* ]] && ok

# A forced shutdown that a dead server had is ordered again, of the UPSs that are named, as the first user who may. Nobody else's words
# count as one, nor a driver's.
cat >upsd.users <<'USERS'
[admin]
password = x
actions = SET
"[the primary]"
"password" = "s3 \"cret"
upsmon primary
USERS
cp upsd.users users
asks() {
    exec 3<>"/dev/tcp/${address%:*}/${address#*:}"
    printf '%s\n' "$@" LOGOUT >&3
    cat <&3
}
again() { MAINPID=$server LISTEN=$address NUT_CONFPATH=$folder/none UPSES=$folder/upses.conf USERS=$folder/upsd.users KEPT=$folder/kept "$top/tools/started"; }
cat >kept <<'LINES'
upsd: good: mon@192.0.2.1 ordered FSD: forced shutdown
upsd: good: mon@192.0.2.2 ordered FSD: forced shutdown
upsd: gone: status ordered FSD: forced shutdown
upsd: none: a\x20b@192.0.2.1 ordered FSD: forced shutdown
LINES
serve good gone
[[ $(again) == '<2>upsd: none: the forced shutdown of before the crash isn'"'"'t set again: ERR UNKNOWN-UPS' ]] && ok
[[ $(asks 'GET VAR good ups.status') == $'VAR good ups.status "FSD OB LB"\nOK Goodbye' ]] && ok
[[ $(grep -c 'ordered FSD' journal) == 1 ]] && grep -qx 'upsd: good: the\\x20primary@127.0.0.1 ordered FSD: forced shutdown' journal && ok
rm kept
serve good
again && [[ $(asks 'GET VAR good ups.status') == 'VAR good ups.status "OB LB"'* ]] && ok
# What the unit keeps of the run that ended: nothing where somebody ended it.
ended() {
    SERVICE_RESULT=$1 EXIT_STATUS=$2 INVOCATION_ID=$3 PATH=$folder/bin:$PATH bash -c "$(sed -n "s/^ExecStopPost=+-.bin.bash -c '\(.*\)'$/\1/p" "$top/examples/voqarchay.service" |
        sed -e 's/\$\$/$/g' -e "s|%t|$folder|g")"
}
ended signal KILL 1 && ended exit-code TERM 2 && ended success HUP 3 && [[ $(cat voqarchay.fsd) == $'line of 1\nline of 2\nline of 3' ]] && ok
grep -qx -- '-q -o cat -g ordered FSD: forced shutdown _SYSTEMD_INVOCATION_ID=2' asked && [[ $(stat -c %a voqarchay.fsd) == 644 ]] && ok
ended success TERM 4 && [[ ! -e voqarchay.fsd ]] && ok
[[ $(sed -n 's|.*KEPT:-/run/\(.*\)}.*|\1|p' "$top/tools/started") == voqarchay.fsd ]] && ok
# What may be a slip, and what stands in NUT's files alone.
printf '[admin]\npassword = x\nupsmon secondary\n' >upsd.users
printf '[good]\nsocket = %s\n[twin]\nsocket = %s\n[near]\nsocket = run/near\n' "$folder/good" "$folder/good" >upses.conf
mkdir nut
printf '[good]\n' >nut/ups.conf
touch -d '+1 hour' nut/upsd.users
MAINPID=$server LISTEN=$address NUT_CONFPATH=nut UPSES=upses.conf USERS=upsd.users KEPT=kept "$top/tools/started" >said
diff - said <<'SAID' && ok
<4>upsd: twin: upses.conf: it has the socket of good, whose state it shows
<4>upsd: near: upses.conf: its socket is no whole path
<4>upsd: upsd.users: nobody may order a forced shutdown: the primary wants a user with upsmon primary
<4>upsd: nut/upsd.users is newer than upsd.users: this server reads the second one alone
SAID

# What the unit does before a start. The users' file is judged where it is, and named so, and the list where it is there.
judge() {
    UPSES=$folder/upses.conf sh -c "$(sed -n "s/^ExecStartPre=+.bin.sh -c '\(.*users.*\)'$/\1/p" "$top/examples/voqarchay.service" |
        sed -e 's/\$\$/$/g' -e "s|/usr/local/sbin|$top/crates/upsd/out|" -e "s|/etc/voqarchay|$folder|g")" 2>said
}
: >upsd.users
: >cmdvartab
judge && rm upses.conf && judge && ok
echo '[su' >upses.conf
! judge && [[ $(head -n 1 said) == "upsd: $folder/upses.conf:1: cause 1" ]] && rm upses.conf && ok
echo here=1 >upsd.users && ! judge && [[ $(cat said) == "upsd: $folder/upsd.users:1: cause 1"$'\n'"upsd: cause 1: malformed line: here: write key = value, with blanks around =, and a value with blanks in quotes" ]] && ok
rm upsd.users
! judge && [[ $(head -n 1 said) == "upsd: $folder/upsd.users: cannot read" ]] && grep -q '^SyslogIdentifier=upsd$' "$top/examples/voqarchay.service" && ok
# The server takes the words of the unit's command, with the variables as they are, and as from_nut may set them.
runs_with() {
    (
        while read -r variables; do eval "export $variables"; done < <(sed -n 's/^Environment=//p' "$top/examples/voqarchay.service")
        export LISTEN=127.0.0.1:0 UPSES=$folder/upses.conf "$@"
        eval "timeout ${EMULATED:-1} $(sed -n 's/^ExecStart=//p' "$top/examples/voqarchay.service" |
            sed -e "s|/usr/local/sbin|$top/crates/upsd/out|; s|/etc/voqarchay|$folder|; s|%d|$folder|")" >said 2>&1 || true
    )
    grep -c '^upsd: listening on 127.0.0.1:' said
}
: >upses.conf
: >upsd.users
[[ $(runs_with MAXAGE=15) == 1 ]] && ok
[[ $(runs_with TRACKING= OPTIONS='--nut-bytes --listen 127.0.0.1:0') == 2 ]] && ok
[[ $(runs_with MAXAGE=15.5) == 0 ]] && ok
grep -q '^LimitFSIZE=infinity$' "$top/examples/voqarchay.service" && ok
# The pause, where systemd has counted so many tries, last saw the server in that second, and the last start failed in that one.
printf '#!/bin/sh\ncat shown\n' >bin/systemctl
printf '#!/bin/sh\necho "$1"\n' >bin/sleep
printf '#!/bin/sh\ncat "$NUT_CONFPATH/upsmon.conf"\n' >bin/unshare
chmod +x bin/*
pause() {
    printf 'NRestarts=%s\nActiveExitTimestampMonotonic=%s000000\nInactiveExitTimestampMonotonic=%s000001\n' "$@" >shown
    PATH=$folder/bin:$PATH bash -c "$(sed -n "s/^ExecStartPre=+.bin.bash -c '\(.*\)'$/\1/p" "$top/examples/voqarchay.service" | sed 's/\$\$/$/g')"
}
# A crash; the ninth one; tries that fail after it; at the boot, when it never was there.
[[ $(pause 0 100 900) == 0 && $(pause 9 100 100) == 0 ]] && ok
[[ $(pause 13 100 102) == 0 && $(pause 19 100 116) == 8 && $(pause 90 100 500) == 30 ]] && ok
[[ $(pause 4 0 90) == 0 && $(pause 9 0 90) == 9 ]] && ok
# The record's drop-in has the unit's own command.
[[ $(grep '^ExecStart=.' "$top/examples/record.conf") == "$(grep '^ExecStart=' "$top/examples/voqarchay.service") --record "* ]] && ok

# It deletes records of more than 30 days, though the folder is a link.
mkdir state
ln -s state upsd
touch -d '-40 days' state/old
touch -d '-29 days' state/young
eval "$(sed -n 's/^ExecStartPre=-\(find .*\)/\1/p' "$top/examples/record.conf" | sed 's|%S|.|')"
[[ $(ls state) == young ]] && ok

# NUT's server doesn't start while the unit is enabled. No start of NUT's is one of the unit's, or ends it, and the unit's name is none
# of NUT's: nut-server.service is upsd.service too, from NUT 2.8.1 on.
[[ $(sed -n 's/^ConditionPathExists=!//p' "$top/examples/unless_upsd.conf") == \
    "/etc/systemd/system/$(sed -n 's/^WantedBy=//p' "$top/examples/voqarchay.service").wants/voqarchay.service" ]] &&
    ! grep -E '^(Alias|Conflicts)=' "$top/examples/voqarchay.service" && [[ ! -e $top/examples/upsd.service ]] && ok

# A drill watches one UPS, and shuts nothing down.
cat >upsmon.conf <<'CONF'
MONITOR rack@localhost 1 monpri "local pass" primary
MONITOR lab@m2 0 monpri local_pass primary
MONITOR core 1 monsec local_pass secondary
SHUTDOWNCMD "/sbin/shutdown -h +0"
NOTIFYCMD /sbin/upssched
POWERDOWNFLAG /etc/killpower
FINALDELAY 3
CONF
PATH=$folder/bin:$PATH NUT_CONFPATH=. "$top/tools/drill" lab@m2 >drilled
diff - drilled <<'CONF' && ok
MONITOR drill@m2 1 monpri local_pass primary
FINALDELAY 3
MINSUPPLIES 1
SHUTDOWNCMD "logger -s -t drill would shut down"
CONF
if NUT_CONFPATH=. "$top/tools/drill" su@localhost 2>/dev/null; then exit 1; fi
drilled() { PATH=$folder/bin:$PATH NUT_CONFPATH=. "$top/tools/drill" "$1" | head -n 1; }
[[ $(drilled rack@localhost) == 'MONITOR drill@localhost 1 monpri "local pass" primary' && $(drilled core) == 'MONITOR drill 1 monsec local_pass secondary' ]] && ok
[[ $("$top/tools/drill" --help) == 'usage: drill UPS@HOST, as in a MONITOR line of upsmon.conf' ]] && ok
echo "unit: $checks of 46 checks"
[[ $checks == 46 ]]
