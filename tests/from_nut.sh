#!/usr/bin/env bash
# `tools/from_nut` over files as NUT's upsd reads them, in scripts/from_nut: what it writes, what it says that it left out, and that the
# built server takes what it wrote.
set -euo pipefail
# shellcheck source=tests/built.bash
source "$(dirname "${BASH_SOURCE[0]}")/built.bash"
built upsd
folder=$(mktemp -d)
trap 'rm -r "$folder"' EXIT
cd "$folder"
cp "$top"/tests/scripts/from_nut/* .

checks=0
ok() { checks=$((checks + 1)); }
from_nut() { bash "$top/tools/from_nut" "$@"; }
# Compares what is written and said of a file with what stands beside it.
turns() {
    from_nut -o "$1" "$2" >"$2.written" 2>"$2.said"
    cmp "$2.written" "$2.wanted" && cmp "$2.said" "$2.left" && ok
}

turns ups ups.conf
turns users upsd.users
turns conf upsd.conf
[[ $(from_nut -v ups ups.conf 2>&1 >/dev/null | grep -c 'left out') == 3 ]] && ok

# What is refused: a file of which kind, and what is printed of it.
while IFS='|' read -r kind text wanted; do
    # shellcheck disable=SC2059 # the text is a format
    printf "$text" >refused
    if from_nut "$kind" refused >written 2>said; then exit 1; fi
    if grep -qxF "refused:$wanted" said; then ok; else cat said; fi
done <<'CASES'
ups||0: refused: no UPS
ups|\357\273\277[su]\n|1: refused: a byte order mark
ups|[su]\ndriver = dummy-\\\n|2: refused: a \ at the end of the line
ups|[su]\ndesc = a\ndesc = b\n|3: refused: desc is here twice in [su]
ups|[su]\ninclude /x\n|2: refused: include: this server has one file
users|[mon]\n[two words]\n|2: refused: no line of a section: what follows belongs to [mon]
users|[mon]\npassword = a\npassword = b\n|3: refused: password is here twice in [mon]
conf|LISTEN no.such.invalid 3493\n|1: refused: LISTEN no.such.invalid: no address of that name is known
conf|LISTEN 127.0.0.1 abc\n|1: refused: LISTEN 127.0.0.1 abc: the port is a number, 1 to 65535
conf|LISTEN ::1 65536\n|1: refused: LISTEN ::1 65536: the port is a number, 1 to 65535
users|[mon]\nupsmon frob\n|2: refused: upsmon frob
conf|LISTEN ::1\nLISTEN ::1 3493\nLISTEN ::1 1\nLISTEN ::1 2\nLISTEN ::1 3\nLISTEN ::1 4\nLISTEN ::1 5\nLISTEN ::1 6\nLISTEN ::1 7\nLISTEN ::1 8\n|10: refused: LISTEN: the server has at most eight addresses
conf|MAXAGE 15.5\n|1: refused: MAXAGE 15.5: it is a whole number of seconds
CASES
status=0
from_nut users "$folder" 2>said || status=$?
[[ $status == 1 && $(cat said) == "from_nut: $folder: cannot read" ]] && ok
# What isn't ASCII is left out, as NUT's server does, and upsmon with a password.
printf '[su]\ndriver = x\ndesc = "B\303\274ro\toben\177"\n# \303\274\n' >letters
[[ $(from_nut ups letters 2>said | tail -n 1) == 'desc = "Brooben"' && $(cat said) == "letters:3: what isn't ASCII is left out, as NUT's server and upsmon do" ]] && ok
printf '[m\303\274]\n\tpassword = m\303\274ller\nupsmon primary\n' >letters
[[ $(from_nut users letters 2>said) == $'[m]\npassword = "mller"\nupsmon primary' && $(wc -l <said) == 2 ]] && ok
mkdir bin
printf '#!/bin/sh\necho "192.0.2.7       STREAM $2"\n' >bin/getent
chmod +x bin/getent
echo 'LISTEN ups.example' >refused
[[ $(PATH=$folder/bin:$PATH from_nut conf refused) == *'=LISTEN=192.0.2.7:3493' ]] && ok

# Drivers of NUT, each of which says its version so.
mkdir drivers
for version in 2.7.4 2.8.0 2.8.1; do printf '#!/bin/sh\necho "Network UPS Tools - Driver 0.14 (%s)"\n' $version >drivers/of-$version; done
for driver in usbhid-ups dummy-ups; do ln -s of-2.8.1 drivers/$driver; done
chmod +x drivers/of*
with_drivers() { { echo "driverpath = $folder/drivers"; cat "$1"; } >"$1.new" && mv "$1.new" "$1"; }
with_drivers ups.conf

# The whole migration, below another root: first what it would do, then what keeps it from doing it, then twice.
export DESTDIR=$folder/root
from_nut -o -n all . >said 2>&1
[[ ! -e root ]] && ! grep -q s3 said && grep -q '^systemctl restart voqarchay$' said && ! grep -q TRACKING said && grep -q '^from_nut: the server has --nut-bytes: ' said && ok
mkdir etc tmp
cp -r ups.conf upsd.users etc
printf '#!/bin/sh\necho masked\nexit 1\n' >bin/systemctl
chmod +x bin/systemctl
# Fails unless these files and words are refused so, and no file is left, though it be no trial.
is_refused() {
    for dry in '' -n; do
        if TMPDIR=$folder/tmp PATH=$folder/bin:$PATH from_nut "${@:2}" $dry all etc >said 2>&1; then exit 1; fi
    done
    if grep -q "$1" said && [[ ! -e root && -z $(ls tmp) ]]; then ok; else cat said; fi
}
DESTDIR='' is_refused "^from_nut: refused: the unit is masked: "
echo 'LISTEN 300.0.0.1' >etc/upsd.conf
is_refused "^from_nut: refused: --listen 300.0.0.1:3493: the server doesn't take that"
printf 'LISTEN 127.0.0.1\nLISTEN 192.0.2.1\n' >etc/upsd.conf
DESTDIR='' is_refused '^from_nut: refused: LISTEN: upsd: 192.0.2.1:0: Cannot assign requested address'
echo 'MAXAGE 20.5' >etc/upsd.conf
is_refused '^etc/upsd.conf:1: refused: MAXAGE 20.5: it is a whole number of seconds$'
echo 'STATEPATH nut' >etc/upsd.conf
is_refused '^from_nut: refused: STATEPATH nut: no whole path$'
rm etc/upsd.conf
# What the server refuses is said of NUT's file and line.
printf '[other]\n\n    actions = reboot\n' >>etc/upsd.users
is_refused "^etc/upsd.users:$(wc -l <etc/upsd.users): refused: "
cp upsd.users etc
for number in {1..33}; do printf '[ups-%s]\n    driver = of-2.8.1\n' "$number"; done >etc/ups.conf
with_drivers etc/ups.conf
is_refused '^etc/ups.conf:66: refused: '
# A driver of NUT 2.7, and one that nobody knows.
for driver in of-2.8.0 of-2.7.4 unknown; do
    printf '[su]\n    driver = %s\n[more]\ndriver = of-2.8.1\n' "$driver" >etc/ups.conf
    with_drivers etc/ups.conf
    from_nut -n all etc >said 2>&1
    tracked="^from_nut: orders aren't tracked: .*(found: ${driver#of-})"
    if [[ $driver == of-2.8.0 ]]; then
        ! grep -q 'TRACKING\|tracked' said && ok
    else
        grep -qx '    Environment=TRACKING=' said && grep -q "$tracked" said && ok
    fi
done
cp ups.conf etc
for line in 'FORCESSL 1' 'CERTVERIFY "1"'; do
    printf 'FORCESSL 0\n%s\n' "$line" >etc/upsmon.conf
    is_refused "^from_nut: refused: etc/upsmon.conf: upsmon doesn't connect to a server without TLS$"
    grep -qxF "etc/upsmon.conf:2:$line" said && ok
done
echo 'FORCESSL 0' >etc/upsmon.conf
from_nut -n all etc >said 2>&1 && ok
# MONITOR lines that lead to this server.
while IFS='|' read -r line wanted; do
    printf '# first\nMONITOR %s\n' "$line" >etc/upsmon.conf
    is_refused "^etc/upsmon.conf:2: refused: $wanted$"
done <<'CASES'
SU@localhost 1 mon p"w primary|the server has no UPS SU: write su
rack@127.0.0.1:3493 1 mon p"w primary|the server has no UPS rack
su@[::1] 1 nobody p"w primary|upsd.users has no user nobody
su 1 mon wrong primary|that isn't the password of mon in upsd.users
su 1 admin "s3 c\"re" primary|that isn't the password of admin in upsd.users
CASES
printf '%s\n' 'MONITOR su@localhost 1 admin "s3 c\"ret" primary' 'MONITOR su 1 mon p"w secondary' 'MONITOR bay-2@localhost 1 mon p"w master' \
    'MONITOR no@m2 1 no no primary' >etc/upsmon.conf
from_nut -n all etc >said 2>&1 && [[ $(grep upsmon.conf said) == 'etc/upsmon.conf:3: mon is no upsmon primary in upsd.users: this machine sets no forced shutdown' ]] && ok
rm etc/upsmon.conf

# What NUT's server answers, and how many connections it has.
: >table
python3 "$top/tests/unit_peers.py" table table >port 2>/dev/null &
peer=$!
trap 'kill "$peer"; rm -r "$folder"' EXIT
until [[ -s port ]]; do sleep 0.05; done
echo "LISTEN 127.0.0.1 $(cat port)" >etc/upsd.conf
printf '#!/bin/sh\n[ "$*" = "-Htn state established sport = :%s" ] && seq "$(cat connections)"\n' "$(cat port)" >bin/ss
printf '#!/bin/sh\nexit 1\n' >bin/systemctl
chmod +x bin/ss
answers() {
    printf '%s\n' 'VER|x' 'LIST UPS|BEGIN LIST UPS\nUPS su "a"\nUPS bay-2 "b"\nEND LIST UPS' 'GET VAR su ups.status|VAR su ups.status "OL"' "GET VAR bay-2 ups.status|$1" >table
}
echo 56 >connections
for status in 'OB LB' 'FSD OL'; do
    answers "VAR bay-2 ups.status \"$status\""
    DESTDIR='' is_refused "^from_nut: refused: the UPS bay-2 is $status: the server that serves it must go on$"
done
answers 'ERR DATA-STALE'
DESTDIR='' PATH=$folder/bin:$PATH from_nut -n all etc >said 2>&1 && grep -qx 'from_nut: nobody knows the state of the UPS bay-2: ERR DATA-STALE' said && ok
echo 57 >connections
DESTDIR='' is_refused "^from_nut: refused: NUT's server has 57 connections"
echo 'LISTEN 127.0.0.1 1' >etc/upsd.conf
sed -i 's/ && .*/ || true/' bin/ss
DESTDIR='' PATH=$folder/bin:$PATH from_nut -n all etc >said 2>&1 && grep -qx 'from_nut: no server answers at 127.0.0.1:1: nobody looked whether a UPS is OB or FSD' said && ok
printf '#!/bin/sh\nexit 1\n' >bin/ss
DESTDIR='' PATH=$folder/bin:$PATH from_nut -n all etc >said 2>&1 && grep -qx 'from_nut: ss fails: nobody counted the connections' said && ok
rm etc/upsd.conf
cat >hosts.allow <<'RULES'
sshd: ALL
upsd: 192.0.2.7, 10.1. \
    [2001:db8::]/32 .example
upsd: ALL EXCEPT 192.0.2.66
ALL EXCEPT upsd: 192.0.2.8
RULES
echo 'ALL: ALL' >hosts.deny
is_refused '^from_nut: refused: more machines would reach this server: -o accepts that$'
diff - <(grep -A 9 'The same in nftables:' said | sed -n 's/^    //p') <<'RULES' && ok
tcp dport 3493 ip saddr 192.0.2.7 accept
tcp dport 3493 ip saddr 10.1.0.0/16 accept
tcp dport 3493 ip6 saddr 2001:db8::/32 accept
# by hand, of etc/../hosts.allow:3: .example
# by hand, of etc/../hosts.allow:4: upsd: ALL EXCEPT 192.0.2.66
# by hand, of etc/../hosts.allow:5: ALL EXCEPT upsd: 192.0.2.8
tcp dport 3493 drop
RULES
from_nut -o -n all etc >said 2>&1 && ok

mkdir -p root/etc/voqarchay
echo first >root/etc/voqarchay/upses.conf
for ((time = 0; time < 2; time++)); do
    (umask 022 && from_nut -o all . >said 2>&1)
done
[[ $(cat root/etc/voqarchay/upses.conf~) == first ]] && ok
grep -q '^    systemctl disable --now voqarchay && systemctl enable --now nut-server$' said && ok
cmp root/etc/voqarchay/upsd.users upsd.users.wanted && cmp root/etc/voqarchay/upses.conf ups.conf.wanted &&
    cmp root/etc/systemd/system/voqarchay.service.d/from_nut.conf upsd.conf.wanted && ok
[[ $(cd root/etc/voqarchay && stat -c '%n %a' upsd.users upsd.users~ upses.conf) == $'upsd.users 600\nupsd.users~ 600\nupses.conf 644' ]] &&
    ok
unset DESTDIR

"$top/crates/upsd/out/upsd" replay --ups ups.conf.written --users upsd.users.written /dev/null >said
[[ $(cat said) == $'driver bay-2 sent 0 bytes\ndriver idle sent 0 bytes\ndriver su sent 0 bytes' ]] && ok
if from_nut users 2>usage; then exit 1; fi
grep -q '^usage: from_nut' usage && [[ $(from_nut --help) == "$(cat usage)" && $(from_nut -h) == "$(cat usage)" ]] && ok

# The whole migration in a folder /etc of its own, with a server that loses a client, and the way back over a masked unit.
if unshare -rm true 2>/dev/null; then
    answers 'VAR bay-2 ups.status "OL"'
    { cat table && echo 'GET VAR idle ups.status|VAR idle ups.status "OL"'; } >after
    clients() { printf 'LIST CLIENT su|BEGIN LIST CLIENT su\\n%sEND LIST CLIENT su\n' "$(printf 'CLIENT su %s\\n' "$@")"; }
    clients 192.0.2.7 192.0.2.8 ::1 >>table
    clients ::ffff:192.0.2.7 127.0.0.1 >>after
    cp ups.conf upsd.users etc
    echo "LISTEN 127.0.0.1 $(cat port)" >etc/upsd.conf
    cat >bin/systemctl <<'SH'
#!/bin/sh
case $*:$MASKED in
'restart voqarchay:'*) cp after table ;;
'show -p MainPID --value voqarchay:'*) echo "$RUNNING" ;;
'is-enabled nut-server:yes') echo masked ;;
esac
SH
    printf '#!/bin/sh\nexit\n' >bin/sleep
    chmod +x bin/*
    cat >migrate <<'SH'
mount --rbind /etc old && mount -t tmpfs none /etc && ln -s "$PWD/old/alternatives" /etc || exit
"$1/crates/upsd/out/upsd" serve --ups /dev/null --users /dev/null --listen 127.0.0.1:0 >/dev/null 2>&1 &
export RUNNING=$! status=0
bash "$1/tools/from_nut" -o all etc || status=$?
kill "$RUNNING"
exit "$status"
SH
    migrates() { MASKED=$1 PATH=$folder/bin:$PATH unshare -rm bash migrate "$top" >said 2>&1; }
    cp table before
    mkdir old
    ! migrates no && grep -qx 'from_nut: 192.0.2.8 was logged in to su, and hasn.t come back in 20 seconds: journalctl -t upsd' said && [[ $(grep -c 'come back' said) == 1 ]] && ok
    grep -qx "127.0.0.1:$(cat port): bay-2: VAR bay-2 ups.status \"OL\"" said && ok
    cp before table
    clients 192.0.2.7 127.0.0.1 192.0.2.8 >>after
    migrates yes && grep -qx '    systemctl unmask nut-server && systemctl disable --now voqarchay && systemctl enable --now nut-server' said && ! grep -q "nut-driver@" said && ok
    rm drivers/dummy-ups && ln -s of-2.8.0 drivers/dummy-ups
    cp before table
    migrates no && grep -qx "A driver of NUT 2.8.0 or older may take a whole processor now: systemctl restart 'nut-driver@\*'" said && ok
else
    echo 'from_nut: four checks are skipped: unshare has no rights'
    checks=$((checks + 4))
fi
echo "from_nut: $checks of 61 checks"
[[ $checks == 61 ]]
