# Completions of pocsag for fish: commands, options and their values; any other word is a file's name.
set -l commands plan check report explain decode hear show wav open help
set -l options \
    pocsag='--strict --verbose -h --help -V --version' \
    plan='--limit --end --verbose --idle-last --expect --strict --always --verify --keep --at-most --airtime --rate --rest --why --later --oversized -h --help' \
    check='--verbose -h --help' \
    explain='--depth --json --verbose --svg -h --help' \
    decode='--repair --capture --verbose --json --text -h --help' \
    hear='--json --text --verbose --capture -h --help' \
    show='--svg --rows --verbose --list --repair --capture --nth -h --help' \
    wav='--rate --samples --verbose --invert --preamble --tail -h --help' \
    open='--journal --read-only --verbose --expect --strict --always --keep -h --help' \
    report='--rate --limit --verbose --end --idle-last --expect --strict --always --frames --at-most --airtime --later --oversized -h --help'

# Whether the words before the cursor begin with this command; for pocsag, whether there are none.
function __pocsag_is
    set -l words (commandline -opc) pocsag
    test "$words[2]" = "$argv"
end

for line in $options
    set -l parts (string split -m 1 = $line)
    for option in (string split ' ' -- $parts[2])
        set -l value
        switch $option
            case --end
                set value -x -a 'open closed idle'
            case --rate
                set value -x -a '512 1200 2400'
            case --limit --expect --at-most --airtime --depth --text --rows --nth --samples --preamble --tail
                set value -x # no file names where no value is known
            case --rest --why --oversized --journal
                set value -r
        end
        set -l kind -l
        string match -q -- '--*' $option; or set kind -s
        complete -c pocsag -n "__pocsag_is $parts[1]" $kind (string trim -l -c - -- $option) $value
    end
end
complete -c pocsag -n '__pocsag_is pocsag' -f -a "$commands"
complete -c pocsag -n '__pocsag_is help; and test (count (commandline -opc)) = 2' -f -a "$commands"
