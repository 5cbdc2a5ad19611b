# Completions of pocsag for bash: commands, options and their values; any other word is a file's name.
_pocsag() {
    local word=${COMP_WORDS[COMP_CWORD]} before=${COMP_WORDS[COMP_CWORD - 1]} command=pocsag
    case $before in
    --end)
        compopt +o default 2>/dev/null # no file names where no value fits
        mapfile -t COMPREPLY < <(compgen -W "open closed idle" -- "$word")
        return
        ;;
    --rate)
        compopt +o default 2>/dev/null
        mapfile -t COMPREPLY < <(compgen -W "512 1200 2400" -- "$word")
        return
        ;;
    --limit | --expect | --at-most | --airtime | --depth | --text | --rows | --nth | --samples | --preamble | --tail)
        compopt +o default 2>/dev/null
        COMPREPLY=()
        return
        ;;
    esac
    if ((COMP_CWORD > 1)); then
        command=${COMP_WORDS[1]}
    fi
    local -A options=(
        [pocsag]='--strict --verbose -h --help -V --version'
        [plan]='--limit --end --verbose --idle-last --expect --strict --always --verify --keep --at-most --airtime --rate --rest --why --later --oversized -h --help'
        [check]='--verbose -h --help'
        [explain]='--depth --json --verbose --svg -h --help'
        [decode]='--repair --capture --verbose --json --text -h --help'
        [hear]='--json --text --verbose --capture -h --help'
        [show]='--svg --rows --verbose --list --repair --capture --nth -h --help'
        [wav]='--rate --samples --verbose --invert --preamble --tail -h --help'
        [open]='--journal --read-only --verbose --expect --strict --always --keep -h --help'
        [report]='--rate --limit --verbose --end --idle-last --expect --strict --always --frames --at-most --airtime --later --oversized -h --help'
        [help]=''
    )
    local commands='plan check report explain decode hear show wav open help'
    if [[ $word == -* ]]; then
        mapfile -t COMPREPLY < <(compgen -W "${options[$command]-}" -- "$word")
    elif ((COMP_CWORD == 1)) || [[ $command == help && $COMP_CWORD -eq 2 ]]; then
        mapfile -t COMPREPLY < <(compgen -W "$commands" -- "$word")
    else
        COMPREPLY=()
    fi
}
complete -o default -F _pocsag pocsag
