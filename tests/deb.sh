#!/usr/bin/env bash
# `make deb`, and the package installed and taken away on a root of its own, by a dpkg that keeps its state there too. What it
# has is named unlike anything of NUT's packages, and its links, pages and unit lead to what it brought.
set -euo pipefail
# shellcheck source=tests/built.bash
source "$(dirname "${BASH_SOURCE[0]}")/built.bash"
for tool in dpkg dpkg-deb; do
    [[ -n $(type -P "$tool") ]] || { echo "deb: skipped: $tool isn't there"; exit 0; }
done
# Only root may give files away; fakeroot says that it did.
as_root=()
if [[ $(id -u) != 0 ]]; then
    [[ -n $(type -P fakeroot) ]] || { echo 'deb: skipped: only root installs, and fakeroot is not there'; exit 0; }
    as_root=(fakeroot)
fi
built upsd upsc upsrw upscmd demodriver
cd "$top"
folder=$(mktemp -d)
trap 'rm -r "$folder"' EXIT
root=$folder/root usr=$folder/root/usr

checks=0
ok() { checks=$((checks + 1)); }
# Dependencies aren't asked for, and the package's scripts run without a change of root: there is no shell on this one.
dpkg_there() {
    PATH=$PATH:/usr/sbin:/sbin "${as_root[@]}" dpkg --root="$root" --log="$folder/log" --force-not-root --force-depends \
        --force-script-chrootless "$@"
}
mine() { cksum /var/lib/dpkg/status 2>/dev/null || true; }
before=$(mine)

make -s deb VERSION=1.2.3~dev PACKAGES="$folder" >/dev/null
package=$(echo "$folder"/voqarchay_1.2.3~dev_*.deb)
[[ $(dpkg-deb -f "$package" Package Version) == $'Package: voqarchay\nVersion: 1.2.3~dev' ]] && ok
dpkg-deb -c "$package" >"$folder/list"
! grep -vE ' root/root ' "$folder/list" && ok
# Below folders that all packages share, each file goes by a name of its own.
sed -E 's/.* \.(\/[^ ]*)( -> .*)?$/\1/' "$folder/list" | grep -v '/$' >"$folder/paths"
! grep -vE '^/usr/(lib|share|share/doc)/voqarchay/|/voqarchay-[^/]*$|^/usr/lib/systemd/system/((voqarchay|demodriver@).service|nut-server.service.d/unless_upsd.conf)$' "$folder/paths" && ok

install -d "$root"/var/lib/dpkg/{info,updates,triggers}
touch "$root"/var/lib/dpkg/{status,available}
dpkg_there -i "$package" >"$folder/said" 2>&1 || cat "$folder/said"
[[ $(dpkg-query --admindir="$root/var/lib/dpkg" -W -f '${Status}' voqarchay) == 'install ok installed' ]] && ok
for program in upsc upsrw upscmd; do
    "$usr/bin/voqarchay-$program" --help | cmp -s - "crates/$program/stdout" && ok
done
"$usr/sbin/voqarchay-upsd" replay crates/upsd/data/first.txt | cmp -s - crates/upsd/stdout && ok
[[ -f $root$(sed -n 's/^ExecStart=\([^ ]*\) .*/\1/p' "$usr/lib/systemd/system/voqarchay.service") ]] && ok
[[ -f $root$(sed -n 's/^ExecStart=\([^ ]*\) .*/\1/p' "$usr/lib/systemd/system/demodriver@.service") ]] && ok
# What its units and examples name below /usr is there.
[[ -z $(grep -rohE '/usr/[a-z0-9/_.-]+' "$usr/lib/systemd" "$usr/share/doc/voqarchay/examples" | sort -u |
    while read -r path; do [[ -e $root$path ]] || echo "$path"; done) ]] && ok
# The completion is of the package's names, and leaves NUT's programs alone.
[[ $(bash -c 'source "$1/voqarchay-upsc" && complete -p' _ "$usr/share/bash-completion/completions" |
    grep -c '_voqarchay voqarchay-ups') == 4 ]] && ok
bash -c '! source "$1/voqarchay-upsc" || ! complete -p upsc' _ "$usr/share/bash-completion/completions" 2>/dev/null && ok
[[ $("$usr/sbin/voqarchay-from_nut" users /dev/null) == '' ]] && ok
[[ $(zcat "$usr/share/doc/voqarchay/changelog.gz" | head -n 1) == '# Changelog' ]] && ok
grep -q '^MIT License' "$usr/share/doc/voqarchay/copyright" && ok
# The pages lead to pages of the package, of the same section, and to NUT's upsmon alone.
cited=$(zcat "$usr"/share/man/man[58]/*.gz | sed -nE 's/^\.BR ([a-z._-]+) \(([58])\).*/\1.\2/p' | sort -u)
wanted=$(cd "$usr/share/man" && printf '%s\n' man?/*.gz upsmon.8.gz | sed 's|.*/||; s/\.gz$//' | sort)
[[ $cited == "$wanted" ]] && ok

# The package's scripts on a machine with systemd, whose UPS su has that status at the server's address. What they call is in the file
# `ran`.
dpkg-deb -e "$package" "$folder/control"
install -d "$folder/bin"
: >"$folder/table"
python3 "$top/tests/unit_peers.py" table "$folder/table" >"$folder/port" 2>/dev/null &
peer=$!
trap 'kill "$peer"; rm -r "$folder"' EXIT
until [[ -s $folder/port ]]; do sleep 0.05; done
listen=127.0.0.1:$(cat "$folder/port")
cat >"$folder/bin/systemctl" <<'SH'
#!/bin/sh
echo "$*" >>"$FOLDER/ran"
[ "$1" != show ] || case $LISTEN in
[[]*) echo "\"LISTEN=$LISTEN\" MAXAGE=15 \"OPTIONS=--nut-bytes --listen 192.0.2.1:1\"" ;;
*) echo "MAXAGE=15 LISTEN=$LISTEN" ;;
esac
[ "$1" != is-enabled ] || exec test -e "$FOLDER/nut"
SH
printf '#!/bin/sh\nexit 2\n' >"$folder/bin/getent"
printf '#!/bin/sh\necho "groupadd $*" >>"$FOLDER/ran"\n' >"$folder/bin/groupadd"
chmod +x "$folder"/bin/*
# Runs this script with this word, where a look at the status is answered so.
script() {
    printf '%s\n' 'LIST UPS|BEGIN LIST UPS\nUPS su "x"\nEND LIST UPS' "GET VAR su ups.status|$3" >"$folder/table"
    : >"$folder/ran"
    sed -e 's|/run/systemd/system|/|' -e "s|/etc/systemd/system|$folder/system|" "$folder/control/$1" |
        FOLDER=$folder LISTEN=${4:-$listen} PATH=$folder/bin:$PATH bash -s "$2" >"$folder/said" 2>&1
}
is() { echo "VAR su ups.status \"$1\""; }
ran() { grep -q "$1" "$folder/ran"; }
# What keeps the server: a status, another answer, none, and no server. At IPv6 addresses as well.
while IFS='|' read -r at answer said; do
    if script postinst configure "$answer" "$at" && ! ran '^restart' && grep -qxF "voqarchay: $said: not restarted. The old server runs on, until systemctl restart voqarchay" "$folder/said"; then
        ok
    else
        cat "$folder/said"
    fi
done <<CASES
$listen|$(is 'OB DISCHRG')|the UPS su is OB
$listen|$(is 'FSD OB LB')|the UPS su is OB
$listen|$(is FSD)|the UPS su is FSD
$listen|ERR DATA-STALE|nobody knows the state of the UPS su, ERR DATA-STALE
$listen|ERR DRIVER-NOT-CONNECTED|nobody knows the state of the UPS su, ERR DRIVER-NOT-CONNECTED
$listen|$(is '')|nobody knows the state of the UPS su, $(is '')
$listen||nobody knows the state of the UPS su, no answer
127.0.0.1:1|$(is OL)|no answer from 127.0.0.1:1
[::]:${listen##*:}|$(is OB)|the UPS su is OB
CASES
for at in "$listen" "[::]:${listen##*:}" "[::1]:${listen##*:}"; do
    script postinst configure "$(is 'OL CHRG')" "$at" && ran '^restart voqarchay.service$' && ran '^groupadd --system nut$' && [[ ! -s $folder/said ]] && ok
done
# The power is back: the restart is what ends the forced shutdown.
for status in 'FSD OL' 'OL FSD' 'FSD OL CHRG'; do
    script postinst configure "$(is "$status")" && ran '^restart voqarchay.service$' &&
        [[ $(cat "$folder/said") == 'voqarchay: the UPS su is FSD OL: the power is back, and this ends its forced shutdown' ]] && ok
done
# The unit of a package before 1.0.0 is enabled, and has settings.
older() {
    rm -rf "$folder/system"
    install -d "$folder"/system/{multi-user.target.wants,upsd.service.d}
    ln -s gone "$folder/system/multi-user.target.wants/upsd.service"
    touch "$folder/system/upsd.service.d/from_nut.conf"
}
is_taken_over() { ran '^enable voqarchay.service$' && [[ $(cd "$folder/system" && find . -not -type d) == ./voqarchay.service.d/from_nut.conf ]]; }
older
script postinst configure "$(is OL)" && is_taken_over && ran '^stop upsd.service$' && ran '^restart voqarchay.service$' && ok
older
script postinst configure "$(is OB)" && is_taken_over && ! ran '^stop\|^restart' && grep -q 'until systemctl stop upsd, systemctl start voqarchay$' "$folder/said" && ok
if script prerm remove "$(is FSD)"; then exit 1; fi
! ran disable && grep -q 'the UPS su is FSD: not removed' "$folder/said" && ok
script prerm remove "$(is OL)" && ran '^disable --now voqarchay.service$' && ran '^stop demodriver@\*.service$' && grep -q 'nobody serves' "$folder/said" && ! ran '^start' && ok
touch "$folder/nut"
script prerm remove "$(is OL)" && ran '^start nut-server.service$' && grep -q "NUT's server serves" "$folder/said" && ok
if [[ -n $(type -P lintian) ]]; then
    lintian --allow-root --fail-on error "$package" >"$folder/said" 2>&1 && ok || grep '^E' "$folder/said"
else
    echo 'deb: one check is skipped: lintian is not there'
    ok
fi

# What the administrator or from_nut wrote stays until a purge.
install -d "$root"/etc/{voqarchay,systemd/system/{voqarchay,nut-driver-enumerator}.service.d}
touch "$root"/etc/{voqarchay/upsd.users,voqarchay/upsd.users~,systemd/system/voqarchay.service.d/{from_nut,override}.conf} \
    "$root"/etc/systemd/system/{nut-driver-enumerator.service.d/ups_conf_changed.conf,upsd-metrics.service,upsd-metrics.timer}
left() { find "$root" -path "$root/var" -prune -o -not -type d -print; }
dpkg_there -r voqarchay >"$folder/said" 2>&1 || cat "$folder/said"
[[ $(left | wc -l) == 7 ]] && ok
dpkg_there --purge voqarchay >"$folder/said" 2>&1 || cat "$folder/said"
[[ -z $(left) ]] && ok
[[ $(mine) == "$before" ]] && ok
echo "deb: $checks of 41 checks"
[[ $checks == 41 ]]
