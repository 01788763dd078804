#compdef fttcan fttmodel fttlint fttsearch fttlog fttcan-reference
# Completes words in zsh: commands, forms, options, their values, and files. Its folder has to be in fpath, under the
# name _fttcan, where an installation puts it.
# tools/print-completion has written it from the helps of the tools and the commands of the launcher.

# The words that stand after a key.
_fttcan_words() {
    case $1 in
    'fttcan FORM') printf %s 'replay admit check gen live audit handover poll elastic' ;;
    'fttcan replay') printf %s '--tail --report' ;;
    'fttcan live') printf %s '--report' ;;
    'fttcan-reference FORM') printf %s 'replay admit check gen audit handover poll elastic' ;;
    'fttcan-reference replay') printf %s '--tail --report' ;;
    'fttmodel') printf %s '--help --window --turnaround --errors --policy --fill --slots --horizon --nodes --cycles --renumber --keep --map --period-attribute --requests --seed --from --dbc --instances --worst --header --strict --signals --from-dbc --report --compare --from-recording --version' ;;
    'fttmodel --policy') printf %s 'rm dm edf' ;;
    'fttmodel --fill') printf %s 'prefix skip' ;;
    'fttmodel --slots') printf %s '40 96' ;;
    'fttlint') printf %s '--help --plan --streams --wishes --log --bounds --ask --words --live --replay --all --version' ;;
    'fttsearch') printf %s '--help --cycle-us --kbits --slots --window --policy --fill --deadline --bounds --turnaround --horizon --errors --refine --headroom --add --rounding --period --part --join --csv --resume --svg --engine --switch --ask --offsets --out --keep --seconds --rounds --seed --scheduler --tls-ca --tls-cert --tls-key --jobs --version' ;;
    'fttsearch --engine') printf %s 'module program' ;;
    'fttlog FORM') printf %s 'say late svg html json accepted candump pcap from-candump conform bits traffic' ;;
    'fttlog say') printf %s '--help --kbits --names --steps --all --from --to --changes' ;;
    'fttlog late') printf %s '--help --kbits --names --cycle --requests --bounds --system --steps --plan --streams --svg' ;;
    'fttlog svg') printf %s '--help --kbits --names --cycle' ;;
    'fttlog html') printf %s '--help --kbits --names --cycle --steps --title' ;;
    'fttlog json') printf %s '--help --names' ;;
    'fttlog accepted') printf %s '--help' ;;
    'fttlog candump') printf %s '--help --at --starts --ends --interface' ;;
    'fttlog pcap') printf %s '--help --at --starts --ends' ;;
    'fttlog from-candump') printf %s '--help --cycle --starts --ends --interface --strict --calls --snap --moved' ;;
    'fttlog conform') printf %s '--help --names --cycle --starts --ends --interface --strict --tolerance --ppm --requests --reserve --turnaround --any-data --csv --json --show --all' ;;
    'fttlog conform --requests') printf %s 'own any' ;;
    'fttlog bits') printf %s '--help --until' ;;
    'fttlog traffic') printf %s '--help' ;;
    esac
}

_fttcan() {
    local key=${words[1]:t} at=2 first found
    first=$(_fttcan_words "$key FORM")
    if [[ $key == fttcan ]]; then
        # The launcher is a script, and the built program is none.
        if [[ $(head -c 2 -- ${~words[1]:c} 2>/dev/null) == '#!' ]]; then
            [[ $words[2] == try ]] && (( CURRENT > 2 )) && at=3
            (( at == 2 )) && first="$first try help version where"
        fi
    fi
    if [[ -n $first ]] && (( CURRENT == at )); then
        found=$first
    else
        [[ -n $first ]] && key="$key $words[at]"
        if [[ $PREFIX == -* ]]; then
            found=$(_fttcan_words $key)
        else
            found=$(_fttcan_words "$key $words[CURRENT-1]")
        fi
    fi
    if [[ -n $found ]]; then
        compadd -- ${=found}
    elif [[ $PREFIX != -* ]]; then
        _files
    fi
}

_fttcan "$@"
