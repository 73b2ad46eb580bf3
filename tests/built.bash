# Read by the scripts that use the built programs: `built NAME..` has crates/NAME/out/NAME be that of this source.
# A program is built, and with it proved, where it is absent or older than a source; the gate builds all of them.
top=$(cd "$(dirname "${BASH_SOURCE[0]}")/.." && pwd)

built() {
    local name made said
    for name in "$@"; do
        made=$top/crates/$name/out/$name
        if [[ -x $made && -z $(newer_source "$made") ]]; then
            continue
        fi
        said=$(cd "$top/crates/$name" && rt run -- --help 2>&1) || {
            printf '%s\n%s: FAILED: %s was not built\n' "$said" "$(basename "${0%.*}")" "$name"
            exit 1
        }
    done
}

# The first source that is newer than this program, if there is one.
newer_source() {
    find "$top/crates.txt" "$top/crates" -name out -prune -o \
        \( -name '*.rt' -o -name '*.antt' -o -name crates.txt \) -newer "$1" -print -quit
}
