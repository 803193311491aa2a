# shellcheck shell=bash
# Completion in bash for ./swap and ./party, and for the installed programs, which read standard input alone:
# . tools/completion/swap.bash
_swap() {
    local name=${1##*/} word=${COMP_WORDS[COMP_CWORD]} before=${COMP_WORDS[COMP_CWORD - 1]} first=${COMP_WORDS[1]:-} words='' commands
    local is_launcher=
    [[ $1 == */* && -e ${1%/*}/crates.txt ]] && is_launcher=1
    commands='check run race audit make gen clear many'
    [[ $name == party ]] && commands='keys deal terms next judge'
    if ((COMP_CWORD == 1)); then
        words=$commands
        [[ $is_launcher ]] && words+=" --help --version help"
        [[ $is_launcher && $name == swap ]] && words+=" try"
    else
        case $name:$first in
        swap:run) words=--transcript ;;
        party:judge) words=--json ;;
        swap:race) words='--ticks --transcript' ;;
        swap:gen) words='--seed --parties --events --summary' ;;
        esac
        [[ $before == --ticks || $before == --seed || $before == --parties || $before == --events ]] && words=
        [[ $is_launcher ]] && words+=" --help"
    fi
    mapfile -t COMPREPLY < <(compgen -W "$words" -- "$word")
    # (a file stands for the input of a command that reads one, behind the name that some of party's take)
    if [[ $is_launcher && $COMP_CWORD -gt 1 && $first != gen && $word != -* && ! ($name == party && $first != deal && $COMP_CWORD == 2) ]]; then
        mapfile -t -O "${#COMPREPLY[@]}" COMPREPLY < <(compgen -f -- "$word")
        compopt -o filenames 2>/dev/null
    fi
}
complete -F _swap swap party
