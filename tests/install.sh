#!/usr/bin/env bash
# `make install` and `make uninstall` in a folder of their own: what is put there is taken away again, a second
# installation goes over the first, and a file of somebody else's is neither overwritten nor deleted. The installed
# completion has the words of each --help, and the names that a server has.
set -euo pipefail
# shellcheck source=tests/built.bash
source "$(dirname "${BASH_SOURCE[0]}")/built.bash"
built upsd upsc upsrw upscmd demodriver
cd "$top"
folder=$(mktemp -d)
trap 'rm -r "$folder"' EXIT

checks=0
ok() { checks=$((checks + 1)); }
in_root() { make -s "$1" DESTDIR="$folder/root" PREFIX=/usr; }
files() { find "$folder/root" -type f | sort; }
usr=$folder/root/usr unit=$folder/root/usr/lib/systemd/system/voqarchay.service

# A program that isn't proved isn't installed.
for program in upsd upsc upsrw upscmd demodriver; do install -D /bin/true "$folder/unproved/crates/$program/out/$program.try"; done
if make -s -C "$folder/unproved" -f "$top/Makefile" install DESTDIR="$folder/root" >"$folder/said" 2>&1; then exit 1; fi
grep -q "^upsd isn't built: make, make arm64$" "$folder/said" && [[ ! -e $folder/root ]] && ok
in_root install
files >"$folder/first"
[[ $(wc -l <"$folder/first") -gt 24 ]] && ok
[[ $(head -qn 1 "$usr"/share/man/man[58]/* | grep -cE "\"Voqarchay $("$usr/bin/upsc" --version | cut -d ' ' -f 2)\" \"UPS server\"$") == $(find man -type f | wc -l) ]] && ok
grep -q 'ExecStart=/usr/sbin/upsd serve' "$unit" && ok
"$usr/bin/upsc" --help >"$folder/help" && cmp -s "$folder/help" crates/upsc/stdout && ok
[[ -f $folder/root$(sed -n 's/^ExecStart=\([^ ]*\) .*/\1/p' "$usr/lib/systemd/system/demodriver@.service") ]] && ok
# An older installation had a file more.
touch "$usr/share/voqarchay/old"
echo share/voqarchay/old >>"$usr/share/voqarchay/installed"
in_root install
files | cmp -s - "$folder/first" && ok

# The words that bash offers for the last one of a line.
offered() {
    # shellcheck disable=SC2034 # the completion reads them
    COMP_WORDS=("$@") COMP_CWORD=$(($# - 1)) COMP_LINE="$*" COMP_POINT=1000
    _voqarchay "$1" "${@: -1}" "${@: -2:1}"
    printf '%s\n' "${COMPREPLY[@]}" | sort
}
# The options that a --help names, and the subcommands.
options_of() { "$usr/$1" "${@:2}" --help | sed -nE 's/^ +(-[A-Za-z]|--[a-z-]+)(, (--[a-z-]+))? .*/\1 \3/p' | tr ' ' '\n' | grep . | sort; }
subcommands_of() { "$usr/$1" --help | sed -nE '/^Commands:/,/^$/s/^  ([a-z]+) .*/\1/p' | sort; }
# shellcheck source=tools/completion.bash
source "$usr/share/bash-completion/completions/upsd"
[[ $(offered upsd serve --ma) == --maxage ]] && ok
for words in upsc upsrw upscmd 'upsd serve' 'upsd replay'; do
    read -ra words <<<"$words"
    place=bin
    [[ ${words[0]} != upsd ]] || place=sbin
    [[ $(offered "${words[@]}" -) == "$(options_of "$place/${words[0]}" "${words[@]:1}")" ]] && ok
done
[[ $(offered upsd '' | grep -v '^-') == "$(subcommands_of sbin/upsd)" ]] && ok
[[ $(offered voqarchay-upsd serve --ups man/upsd.us) == man/upsd.users.5 ]] && ok

# Names are asked of the program's own server: here of one that has a UPS, a variable and a command.
printf '#!/bin/sh\ncase $1 in\n-l) echo "${2:+test.}su" ;;\nsu) echo "ups.status: OL" ;;\nesac\n' >"$folder/upsc"
chmod +x "$folder/upsc"
cp "$folder/upsc" "$folder/upscmd"
[[ $(offered "$folder/upsc" s) == su && $(offered "$folder/upsc" su u) == ups.status ]] && ok
[[ $(offered "$folder/upscmd" su t) == test.su && $(offered "$folder/upsrw" -s u) == ups.status ]] && ok

# Pages lead to pages that are installed, and nothing cites one that isn't.
missing() {
    cd "$usr/share/doc/voqarchay"
    { grep -oE '\]\([A-Za-z_.-]+' -- *.md | sed 's/.*(//' | grep -vx https && grep -rIohE '\<[A-Z_]+\.md\>' "$usr"; } | sort -u | xargs ls 2>&1 >/dev/null
}
[[ -z $(missing) ]] && ok

# In the folder of the examples OPERATING's commands put each where it says, and the help's example judges the files.
cd "$usr/share/doc/voqarchay/examples"
sed -n 's/^ *\(install -.*\)/\1/p' ../OPERATING.md | sed "s|/etc|$folder/etc|g" | bash -e
[[ $(find "$folder/etc" -type f -printf '%f\n' | sort | paste -sd ' ') == "cmdvartab from_ups_conf.conf record.conf ups_conf_changed.conf upsd-metrics.service \
upsd-metrics.timer upsd.users upses.conf" ]] && ok
[[ $(PATH=$usr/sbin:$PATH bash -c "$("$usr/sbin/upsd" replay --help | sed -n 's/^Example: //p')" 2>/dev/null) == 'driver su sent 0 bytes' ]] && ok
cd "$top"

in_root uninstall
[[ -z $(files) ]] && ok

# NUT's upsc stands there.
install -d "$usr/bin"
echo NUT >"$usr/bin/upsc"
if in_root install >"$folder/said" 2>&1; then exit 1; fi
grep -q "usr/bin/upsc isn't of this package" "$folder/said" && ok
[[ $(files) == "$usr/bin/upsc" ]] && ok
in_root uninstall
[[ $(cat "$usr/bin/upsc") == NUT ]] && ok

# What stands in a release: below a PREFIX as it was meant, or nowhere.
mkdir -p "$folder"/release/{sbin,share/voqarchay,lib/systemd/system} "$folder/work"
cp tools/install "$folder/release"
echo '[Service] ExecStart=/usr/local/sbin/upsd' >"$folder/release/lib/systemd/system/voqarchay.service"
touch "$folder"/release/{sbin/upsd,share/voqarchay/started}
printf '%s\n' sbin/upsd share/voqarchay/started lib/systemd/system/voqarchay.service >"$folder/release/share/voqarchay/installed"
release() { (cd "$folder/work" && ../release/install "$@" >"$folder/said" 2>&1); }
for prefix in "$folder/a&b" "$folder/a|b" "$folder/a b" '%h' --help -x; do
    status=0
    release "$prefix" || status=$?
    [[ $status == 2 && $(wc -l <"$folder/said") == 1 && -z $(find "$folder/work" "$folder"/a* -type f 2>/dev/null) ]] && ok
done
release near/by && [[ $(cat "$folder/work/near/by/lib/systemd/system/voqarchay.service") == "[Service] ExecStart=$folder/work/near/by/sbin/upsd" ]] && ok
release --remove near/by && [[ -z $(find "$folder/work" -type f) ]] && ok
echo "install: $checks of 32 checks"
[[ $checks == 32 ]]
