#!/usr/bin/env bash
# What requests cost a server, as corebench loads it: instructions as callgrind counts them, by the difference of two runs,
# and bytes of heap as dhat counts them at their most. Both are the same from run to run.
#
# The program is built by `rt run` in this folder; valgrind runs it. tools/costs.py measures the same over sockets.
set -euo pipefail
cd "$(dirname "${BASH_SOURCE[0]}")"
program=$(realpath "${1:-out/corebench}")
folder=$(mktemp -d)
trap 'rm -r "$folder"' EXIT
cd "$folder"

# How many instructions the load takes.
instructions() {
    valgrind --tool=callgrind --callgrind-out-file=/dev/null "$program" "$@" 2>&1 >/dev/null |
        sed -n 's/^==[0-9]*== Collected : \([0-9]*\)$/\1/p'
}

# How many bytes of heap the load has at its most.
heap() {
    valgrind --tool=dhat --dhat-out-file=/dev/null "$program" "$@" 2>&1 >/dev/null |
        sed -n 's/^==[0-9]*== At t-gmax: *\([0-9,]*\) bytes.*$/\1/p' | tr -d ,
}

# What a client sends and what a driver does, those first with which the others are compared. An LF parts two lines that stand together.
of_client=('GET VAR su v2048' 'GET VAR su nope' 'GET TYPE su v2048' 'GET DESC su v2048' 'GET CMDDESC su c1' 'GET UPSDESC su' 'GET NUMLOGINS su'
    'GET TRACKING' 'GET TRACKING 00000000-0000-0000-0000-0000000000ff' 'LIST UPS' 'LIST VAR su' 'LIST RW su' 'LIST CMD su' 'LIST ENUM su v2048'
    'LIST ENUM su v0001' 'LIST RANGE su v2048' 'LIST CLIENT su' 'SET VAR su v2048 254' 'SET VAR su v0001 1' 'SET TRACKING ON' 'INSTCMD su c1' 'INSTCMD su x'
    'LOGIN su' 'PRIMARY su' 'FSD su' 'FSD x' 'USERNAME x' 'PASSWORD x' HELP VER NETVER PROTVER STARTTLS x '' LOGOUT)
of_driver=('SETINFO v2048 12' 'SETINFO v2048 123456789012345678901234567890' 'SETINFO ups.status OB' $'SETINFO x 1\nDELINFO x' $'ADDENUM v2048 x\nDELENUM v2048 x'
    'ADDENUM v2048 254' 'DELENUM v2048 x' $'ADDRANGE v2048 1 1\nDELRANGE v2048 1 1' 'ADDRANGE v2048 0 255' 'SETAUX v2048 1' 'SETFLAGS v2048 RW'
    $'ADDCMD x\nDELCMD x' 'ADDCMD c1' DUMPDONE DATAOK DATASTALE PONG 'TRACKING 00000000-0000-0000-0000-0000000000ff 0' x '')

# Prints the instructions of the event that does a full read of each line, over so many variables, and how often the line is in it.
turns() {
    local sender=$1 event=$2 parts=$3 variables=$4
    shift 4
    printf '\n%s, %d variables: instructions, to those of the first line, lines in a read, bytes of answers\n' "$sender" "$variables"
    valgrind --tool=callgrind --callgrind-out-file=part "--toggle-collect=$event" "--dump-after=$event" "$program" "$sender" "$variables" "$@" >said 2>/dev/null
    find . -name 'part.*' | sort -V | tail -n $(($# * parts)) | xargs sed -n 's/^totals: //p' | awk "NR % $parts == 0" | paste - said |
        awk 'NR == 1 { first = $1 } { ratio = $1 / first; instructions = $1; $1 = ""; printf "%10d %6.2f %s\n", instructions, ratio, $0 }'
    rm part*
}

# Prints a cost, of so many things that the second run does more than the first.
print_cost() {
    local what=$1 things=$2 less=$3 more=$4
    printf '%-58s %9d\n' "$what" $(((more - less) / things))
}

print_cost 'GET VAR, from line to taken answer' 10000 "$(instructions get 1000)" "$(instructions get 11000)"
print_cost 'GET VAR, of 60 that are sent at once' $((60 * 200)) "$(instructions pipeline 100)" "$(instructions pipeline 300)"
print_cost "GET VAR and the 512 bytes of a driver's read before it" 1000 "$(instructions flood 100)" "$(instructions flood 1100)"
# Those 1,000 reads hold lines of 27 bytes, and a GET beside them is counted as one alone.
gets=$(($(instructions get 2000) - $(instructions get 1000)))
print_cost "a line of such a read, of 27 bytes, without the GET" $((1000 * 512 / 27)) \
    $(($(instructions flood 100) + gets)) "$(instructions flood 1100)"
print_cost 'SET VAR, from line to taken answer and order' 10000 "$(instructions set 1000)" "$(instructions set 11000)"
for width in 10 256; do
    print_cost "an item of LIST VAR, values of $width bytes" $((10 * 4096)) \
        "$(instructions list $width 1)" "$(instructions list $width 11)"
done
for paused in 0 64; do
    print_cost "SETINFO, $paused listings paused" 10000 \
        "$(instructions report 10 $paused 1000)" "$(instructions report 10 $paused 11000)"
done
# Before each SETINFO a listing begins, which costs the same beside a variable without enum values.
without=$(($(instructions share 0 1100) - $(instructions share 0 100)))
print_cost '256 enum values of a variable, at a SETINFO under a listing' 1000 \
    $(($(instructions share 256 100) + without)) "$(instructions share 256 1100)"
print_cost 'bytes of heap of a session with a paused listing' 63 "$(heap report 256 1 0)" "$(heap report 256 64 0)"
# A LIST RW beside a GET VAR, and where clients may set some of the variables.
for variables in 4096 32768; do
    for line in 'GET VAR su v2048' 'LIST RW su'; do
        print_cost "$line, $variables variables, none RW" 100 "$(instructions ask $variables 0 10 "$line")" "$(instructions ask $variables 0 110 "$line")"
    done
    for rw in 1 10 100; do
        print_cost "LIST RW su, $variables variables, $rw RW" 10 "$(instructions ask $variables $rw 1 'LIST RW su')" "$(instructions ask $variables $rw 11 'LIST RW su')"
    done
done
# Two variables less than there may be, for those that a line adds.
for variables in 4096 32766; do
    turns client '*Server::feed' 2 $variables "${of_client[@]}"
    turns driver '*Server::driver_bytes' 1 $variables "${of_driver[@]}"
    turns driver-under-listing '*Server::driver_bytes' 1 $variables "${of_driver[@]}"
done
