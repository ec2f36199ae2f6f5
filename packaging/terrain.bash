# bash completion of the command terrain: commands, options, files by what a command takes.
_terrain()
{
    local word=${COMP_WORDS[COMP_CWORD]} before=${COMP_WORDS[COMP_CWORD - 1]} command=${COMP_WORDS[1]:-} options=
    compopt -o filenames 2>/dev/null
    if [ "$COMP_CWORD" -eq 1 ]; then
        mapfile -t COMPREPLY < <(compgen -W "check sum compare shade bands near far round convert tile pack unpack info list rewrite help --help --version" -- "$word")
        return
    fi
    case "$before" in
    --from | --to) mapfile -t COMPREPLY < <(compgen -W "pgm png png8 raw raw-big" -- "$word") && return ;;
    --seed | --size) return ;;
    --step) mapfile -t COMPREPLY < <(compgen -W "2 4 8 16 32 64" -- "$word") && return ;;
    --levels) mapfile -t COMPREPLY < <(compgen -W "1 2 3 4 5" -- "$word") && return ;;
    esac
    case "$command" in
    check) options="--seed" ;;
    convert) options="--from --to --size" ;;
    tile) options="--size --join" ;;
    round) options="--levels" ;;
    pack) options="--levels --step" ;;
    bands | far | list)
        if [ "$COMP_CWORD" -eq 2 ]; then mapfile -t COMPREPLY < <(compgen -W "1 2 3 4 5 --help" -- "$word") && return; fi
        ;;
    help) mapfile -t COMPREPLY < <(compgen -W "check sum compare shade bands near far round convert tile pack unpack info list rewrite" -- "$word") && return ;;
    esac
    if [ "$command" = round ] && [ "$COMP_CWORD" -eq 2 ]; then mapfile -t COMPREPLY < <(compgen -W "2 4 8 16 32 64 --levels --help" -- "$word") && return; fi
    if [[ $word == -* ]]; then mapfile -t COMPREPLY < <(compgen -W "$options --help" -- "$word"); else mapfile -t COMPREPLY < <(compgen -f -- "$word"); fi
}
complete -F _terrain terrain
