# Completes words in bash: commands, forms, options, their values, and files. An installation puts it in place. Or call:
#
#     . PATH/tools/completion.bash
#
# tools/print-completion has written it from the helps of the tools and the commands of the launcher.
# shellcheck shell=bash

# The words that stand after a key.
_fttcan_words() {
    case $1 in
    'fttcan FORM') printf %s 'replay admit check gen live audit handover poll elastic' ;;
    'fttcan replay') printf %s '--tail --report' ;;
    'fttcan live') printf %s '--report' ;;
    'fttcan-reference FORM') printf %s 'replay admit check gen audit handover poll elastic' ;;
    'fttcan-reference replay') printf %s '--tail --report' ;;
    'fttmodel') printf %s '--help --window --turnaround --errors --policy --fill --slots --horizon --nodes --cycles --renumber --keep --map --period-attribute --requests --seed --from --dbc --instances --worst --header --strict --signals --from-dbc --report --compare --from-recording --version' ;;
    'fttmodel --policy') printf %s 'rm dm edf' ;;
    'fttmodel --fill') printf %s 'prefix skip' ;;
    'fttmodel --slots') printf %s '40 96' ;;
    'fttlint') printf %s '--help --plan --streams --wishes --log --bounds --ask --words --live --replay --all --version' ;;
    'fttsearch') printf %s '--help --cycle-us --kbits --slots --window --policy --fill --deadline --bounds --turnaround --horizon --errors --refine --headroom --add --rounding --period --part --join --csv --resume --svg --engine --switch --ask --offsets --out --keep --seconds --rounds --seed --scheduler --tls-ca --tls-cert --tls-key --jobs --version' ;;
    'fttsearch --engine') printf %s 'module program' ;;
    'fttlog FORM') printf %s 'say late svg html json accepted candump pcap from-candump conform bits traffic' ;;
    'fttlog say') printf %s '--help --kbits --names --steps --all --from --to --changes' ;;
    'fttlog late') printf %s '--help --kbits --names --cycle --requests --bounds --system --steps --plan --streams --svg' ;;
    'fttlog svg') printf %s '--help --kbits --names --cycle' ;;
    'fttlog html') printf %s '--help --kbits --names --cycle --steps --title' ;;
    'fttlog json') printf %s '--help --names' ;;
    'fttlog accepted') printf %s '--help' ;;
    'fttlog candump') printf %s '--help --at --starts --ends --interface' ;;
    'fttlog pcap') printf %s '--help --at --starts --ends' ;;
    'fttlog from-candump') printf %s '--help --cycle --starts --ends --interface --strict --calls --snap --moved' ;;
    'fttlog conform') printf %s '--help --names --cycle --starts --ends --interface --strict --tolerance --ppm --requests --reserve --turnaround --any-data --csv --json --show --all' ;;
    'fttlog conform --requests') printf %s 'own any' ;;
    'fttlog bits') printf %s '--help --until' ;;
    'fttlog traffic') printf %s '--help' ;;
    esac
}

# Whether a command is the launcher, which is a script, and not the built program.
_fttcan_is_launcher() { [ "$(head -c 2 -- "$(type -P -- "$1")" 2>/dev/null)" = '#!' ]; }

_fttcan() {
    local typed=${COMP_WORDS[COMP_CWORD]} before=${COMP_WORDS[COMP_CWORD - 1]} key=${1##*/} at=1 first words=
    COMPREPLY=()
    [ "$key" = reference ] && key=fttcan-reference
    first=$(_fttcan_words "$key FORM")
    if [ "$key" = fttcan ] && _fttcan_is_launcher "$1"; then
        [ "${COMP_WORDS[1]}" = try ] && [ "$COMP_CWORD" -gt 1 ] && at=2
        [ "$at" -eq 1 ] && first="$first try help version where"
    fi
    if [ -n "$first" ] && [ "$COMP_CWORD" -eq "$at" ]; then
        words=$first
    else
        [ -n "$first" ] && key="$key ${COMP_WORDS[at]}"
        [[ $typed == -* ]] && words=$(_fttcan_words "$key") || words=$(_fttcan_words "$key $before")
    fi
    if [ -n "$words" ]; then
        mapfile -t COMPREPLY < <(compgen -W "$words" -- "$typed")
    elif [[ $typed != -* ]]; then
        mapfile -t COMPREPLY < <(compgen -f -- "$typed")
    fi
}

complete -o filenames -F _fttcan fttcan ./fttcan fttmodel fttlint fttsearch fttlog fttcan-reference tools/fttmodel tools/fttlint tools/fttsearch tools/fttlog tools/reference
