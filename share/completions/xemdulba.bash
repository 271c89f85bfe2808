# shellcheck shell=bash
# Completion of xemdulba for bash. Where it has no word to offer, bash offers files.

_xemdulba() {
    local word=${COMP_WORDS[COMP_CWORD]} words='' before at=$((COMP_CWORD - 1))
    COMPREPLY=()
    if [ "$COMP_CWORD" -eq 1 ]; then
        words='check run round list events help --help -h --version -V'
    else
        for before in "${COMP_WORDS[@]:2:COMP_CWORD-2}"; do
            [ "$before" != -- ] || return
        done
        # bash takes the = before a value for a word of its own.
        if [ "$word" = = ]; then word=''; elif [ "${COMP_WORDS[at]}" = = ]; then at=$((at - 1)); fi
        case ${COMP_WORDS[1]}:${COMP_WORDS[at]}:$word in
            run:--launch:* | round:--launch:*) words='bound 0 1 2 3 4 5 6 7 8 9 10 11 12 13 14 15' ;;
            check:*:-*) words='--json --hex --raw --help' ;;
            run:*:-* | round:*:-*) words='--launch --json --hex --raw --help' ;;
            list:*:-* | events:*:-*) words='--json --hex --raw --bytes --help' ;;
            help:*:-*) words='--json --help' ;;
            help:*) [ "$COMP_CWORD" -gt 2 ] || words='check run round list events help' ;;
            --version:*:-* | -V:*:-* | --help:*:-* | -h:*:-*) words='--json' ;;
        esac
    fi
    [ -z "$words" ] || mapfile -t COMPREPLY < <(compgen -W "$words" -- "$word")
}

complete -o bashdefault -o default -F _xemdulba xemdulba
