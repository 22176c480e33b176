# Bash completion for smilplay. Source it from ~/.bashrc, or copy it to /usr/share/bash-completion/completions/smilplay.

_smilplay()
{
    local word=${COMP_WORDS[COMP_CWORD]}
    local before=${COMP_WORDS[COMP_CWORD - 1]}
    COMPREPLY=()
    if [[ $before == '<' || $before == '>' ]]; then
        mapfile -t COMPREPLY < <(compgen -f -- "$word")
    elif ((COMP_CWORD == 1)); then
        mapfile -t COMPREPLY < <(compgen -W 'run check gen audit' -- "$word")
    elif ((COMP_CWORD == 2)) && [[ $before == gen && -n $word ]]; then
        mapfile -t COMPREPLY < <(compgen -W "$(seq 1 900)" -- "$word")
    fi
}

complete -o filenames -F _smilplay smilplay
