#!/usr/bin/env bash
# An `rt` that isn't the kit's: `make` and its tests stop with one line that names it and the wanted one, and build nothing. Any kit
# is taken with KIT=any, by its command where its module is another one; what it says no proof of isn't called proved.
set -euo pipefail
top=$(cd "$(dirname "${BASH_SOURCE[0]}")/.." && pwd)
folder=$(mktemp -d)
trap 'rm -r "$folder"' EXIT
checks=0
ok() { checks=$((checks + 1)); }

# What make needs, without an rt. The one of another kit, and Request Tracker's, which knows no such command.
mkdir "$folder"/{tools,another,tracker,other}
printf '#!/bin/sh\nexec %s "$@"\n' "$(python3 -c 'import sys; print(sys.executable)')" >"$folder/tools/python3"
printf '#!/bin/sh\necho "rattle-kit-99a logic 0000000000000000"\n' >"$folder/another/rt"
printf '#!/bin/sh\necho "rt: Unknown command: $1" >&2\nexit 255\n' >"$folder/tracker/rt"
chmod +x "$folder"/*/*
for tool in make bash sh sed; do ln -s "$(type -P "$tool")" "$folder/tools/$tool"; done

is_stopped() {
    local target said wanted=$2
    for target in all try test test-try; do
        said=$(PATH=$1:$folder/tools make -s -C "$top" "$target" 2>&1) && return
        [[ $(grep -v '^make' <<<"$said") == "$wanted" ]] && ok
    done
    PATH=$1:$folder/tools python3 "$top/tools/kit.py" 2>/dev/null || [[ $? != 1 ]] || ok
}
of_kit="not of the kit that is wanted, logic dac8208d650f15bf (README.md, The toolchain); KIT=any takes it"
is_stopped "$folder/none" "rt isn't on the PATH: README.md, The toolchain"
is_stopped "$folder/another" "$folder/another/rt says \"rattle-kit-99a logic 0000000000000000\": $of_kit"
is_stopped "$folder/tracker" "$folder/tracker/rt says \"rt: Unknown command: version\": $of_kit"

# By the command, what is below a program comes first.
mkdir -p "$folder"/other/crates/{low,high,alone,program}/out
printf 'low:\nhigh: low clap\nalone:\nprogram: high\n' >"$folder/other/crates.txt"
build() { (cd "$folder/other" && KIT=any PATH=$folder/another:$PATH FAULTY=$1 python3 "$top/tools/build.py" program); }
[[ $(build none | tail -n 1) == 'build: low: FAILED' && -z $(find "$folder/other" -name verdict) ]] && ok
printf '#!/bin/sh\n[ "${PWD##*/}" != "$FAULTY" ] && echo "logic=proved $*"\n' >"$folder/another/rt"
[[ $(build none | tail -n +2 | paste -sd ,) == 'build: low: proved,build: high: proved,build: program: proved' ]] && ok
[[ $(cat "$folder"/other/crates/{low,program}/out/verdict) == $'logic=proved lib\nlogic=proved run -- --version' ]] && ok
[[ $(build high | tail -n 1) == 'build: high: FAILED' ]] && ok
echo "kit: $checks of 19 checks"
[[ $checks == 19 ]]
