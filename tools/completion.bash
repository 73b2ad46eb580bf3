# Completes the words of upsd, upsc, upsrw and upscmd in bash: the options and subcommands of their --help, files, and the names
# of UPSs, variables and commands, for which this machine's server is asked. `source` it, or have it installed where
# bash-completion looks for the program's name.

# Which words may stand there, one a line; FILE for a file, UPS for a UPS, VAR or CMD for what a UPS has, nothing where none
# is known. Given: the program, the word before, the subcommand of upsd, and the UPS that was named.
_voqarchay_words() {
    case $1:$2 in
    upsd:--ups | upsd:--users | upsd:--vars | upsd:--ids | upsd:--record | upsrw:--password-file | upscmd:--password-file) echo FILE ;;
    upsd:--listen | upsd:--idle | upsd:--keep-places | upsd:--maxage | upsd:--record-limit | upsrw:-[up] | upscmd:-[up] | upsc:--tracked) ;;
    upsrw:-s) echo VAR ;;
    upsc:-c | upsc:--attached | upscmd:-l) echo UPS ;;
    upsd:*)
        case $3 in
        serve)
            printf '%s\n' --ups --users --vars --ids --refill-ids --listen --idle --keep-places --maxage --record --record-limit \
                --priorities --nut-bytes --explain -h --help
            ;;
        replay) printf '%s\n' --ups --users --vars --explain -h --help FILE ;;
        help) printf '%s\n' serve replay ;;
        *) printf '%s\n' serve replay help -h --help -V --version ;;
        esac
        ;;
    upsc:*) printf '%s\n' -l -L -c --attached --tracked --explain -h --help -V --version "${4:+VAR}" "${4:-UPS}" ;;
    upsrw:*) printf '%s\n' -s -u -p --password-file --track --explain -h --help -V --version UPS ;;
    upscmd:*) printf '%s\n' -l -u -p --password-file --track --explain -h --help -V --version "${4:+CMD}" "${4:-UPS}" ;;
    esac
}

# The names that a server on this machine has, by the client beside the program: of UPSs, or of a UPS.
_voqarchay_names() {
    local clients=${2%ups*}
    case $1 in
    UPS) "${clients}upsc" -l ;;
    VAR) "${clients}upsc" "${3:-$("${clients}upsc" -l | head -n 1)}" | sed 's/:.*//' ;;
    CMD) "${clients}upscmd" -l "$3" ;;
    esac 2>/dev/null | grep -xE '[[:alnum:]._-]+'
}

# bash gives the command, the word to complete, and the one before.
_voqarchay() {
    local program=${1##*/} before=$3 word subcommand='' ups='' at typed
    program=${program#voqarchay-}
    read -ra typed <<<"${COMP_LINE:0:COMP_POINT}"
    [[ -z $2 ]] || unset 'typed[-1]'
    for ((at = 1; at < ${#typed[@]}; at++)); do
        case ${typed[at]} in
        serve | replay | help) subcommand=${subcommand:-${typed[at]}} ;;
        -[sup] | --password-file) ((++at)) ;;
        -*) ;;
        *) ups=${ups:-${typed[at]}} ;;
        esac
    done
    [[ $before != = ]] || before=${COMP_WORDS[COMP_CWORD - 2]}
    COMPREPLY=()
    while read -r word; do
        case $word in
        FILE)
            compopt -o filenames 2>/dev/null
            mapfile -t -O "${#COMPREPLY[@]}" COMPREPLY < <(compgen -f -- "$2")
            ;;
        UPS | VAR | CMD)
            [[ $2 == -* ]] || mapfile -t -O "${#COMPREPLY[@]}" COMPREPLY < <(compgen -W "$(_voqarchay_names "$word" "$1" "$ups")" -- "$2")
            ;;
        *) [[ -z $word || $word != "$2"* ]] || COMPREPLY+=("$word") ;;
        esac
    done < <(_voqarchay_words "$program" "$before" "$subcommand" "$ups")
}

complete -F _voqarchay upsd upsc upsrw upscmd
