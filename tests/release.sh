#!/usr/bin/env bash
# The script `install` of a release's tar file, over what `make install` would put below /usr/local.
set -euo pipefail
# shellcheck source=tests/built.bash
source "$(dirname "${BASH_SOURCE[0]}")/built.bash"
built upsd upsc upsrw upscmd demodriver
cd "$top"
folder=$(mktemp -d)
trap 'rm -r "$folder"' EXIT
release=$folder/release/usr/local prefix=$folder/prefix

checks=0
ok() { checks=$((checks + 1)); }
files() { (cd "$1" && find . -type f -not -name install | sort); }

make -s install DESTDIR="$folder/release" PREFIX=/usr/local
cp tools/install "$release"
"$release/install" "$prefix" >"$folder/said"
[[ $(files "$prefix") == "$(files "$release")" ]] && ok
cmp -s "$prefix/bin/upsc" crates/upsc/out/upsc && [[ -x $prefix/bin/upsc ]] && ok
grep -q "^ExecStart=$prefix/sbin/upsd serve" "$prefix/lib/systemd/system/voqarchay.service" && ok
! grep -r /usr/local "$prefix/lib/systemd" "$prefix/share/doc/voqarchay/examples" && ok
[[ -z $(type -P systemd-path) ]] || grep -q "systemd doesn't read $prefix/lib/systemd/system:" "$folder/said" && ok
# An older release had a file more.
touch "$prefix/share/voqarchay/old"
echo share/voqarchay/old >>"$prefix/share/voqarchay/installed"
"$release/install" "$prefix" >"$folder/said"
[[ $(files "$prefix") == "$(files "$release")" ]] && ok

echo mine >"$prefix/bin/mine"
"$release/install" --remove "$prefix"
[[ $(files "$prefix") == ./bin/mine && -z $(find "$prefix" -name voqarchay -o -name 'nut-server*') ]] && ok
echo NUT >"$prefix/bin/upsc"
if "$release/install" "$prefix" >"$folder/said" 2>&1; then exit 1; fi
grep -q "bin/upsc isn't of this package" "$folder/said" && [[ $(files "$prefix" | wc -l) == 2 ]] && ok
echo "release: $checks of 8 checks"
[[ $checks == 8 ]]
