#compdef pocsag
# Completions of pocsag for zsh: commands, options and their values; any other word is a file's name.
local command=pocsag
case $words[CURRENT-1] in
--end)
    compadd -- open closed idle
    return
    ;;
--rate)
    compadd -- 512 1200 2400
    return
    ;;
--limit | --expect | --text | --rows | --nth | --depth | --samples | --preamble | --tail | --at-most | --airtime)
    return # no file names where no value is known
    ;;
esac
if ((CURRENT > 2)); then
    command=$words[2]
fi
local -A offered=(
    [pocsag]='--strict --verbose -h --help -V --version'
    [plan]='--limit --end --verbose --idle-last --expect --strict --always --verify --keep --at-most --airtime --rate --rest --why --later --oversized -h --help'
    [check]='--verbose -h --help'
    [explain]='--depth --json --verbose --svg -h --help'
    [decode]='--repair --capture --verbose --json --text -h --help'
    [hear]='--json --text --verbose --capture -h --help'
    [show]='--svg --rows --verbose --list --repair --capture --nth -h --help'
    [wav]='--rate --samples --verbose --invert --preamble --tail -h --help'
    [open]='--journal --read-only --verbose --expect --strict --always --keep -h --help'
    [report]='--rate --limit --verbose --end --idle-last --expect --strict --always --frames --at-most --airtime --later --oversized -h --help'
    [help]=''
)
local named='plan check report explain decode hear show wav open help'
if [[ $words[CURRENT] == -* ]]; then
    compadd -- ${=offered[$command]-}
elif ((CURRENT == 2)) || [[ $command == help && CURRENT -eq 3 ]]; then
    compadd -- ${=named}
elif [[ $command != help ]]; then
    _files
fi
