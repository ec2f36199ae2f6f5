#compdef terrain
# zsh completion of the command terrain: commands, options, files by what a command takes.
_terrain()
{
    local -a commands=(
        'check:there and back through writer and reader'
        'sum:one line that is equal exactly when two maps are'
        'compare:how many heights differ, where and by how much'
        'shade:the ground as people see it'
        'bands:a picture of the coefficients'
        'near:how near each cell of the coarse ground is to changing'
        'far:the distant ground of a map'
        'round:what rounding saves, and by how much heights are off'
        'convert:between PGM, PNG and RAW'
        'tile:a map cut into tiles, and back'
        'pack:the map as a ground file'
        'unpack:the map of a ground file'
        'info:what the header of a ground file says'
        'list:every band row as a line of numbers'
        'rewrite:the map in one fixed form'
        'help:more about a command'
    )
    if ((CURRENT == 2)); then
        _describe command commands
        compadd -- --help --version
        return
    fi
    case $words[CURRENT - 1] in
    --from | --to) compadd -- pgm png png8 raw raw-big && return ;;
    --seed | --size) return ;;
    --step) compadd -- 2 4 8 16 32 64 && return ;;
    --levels) compadd -- 1 2 3 4 5 && return ;;
    esac
    local -a options=(--help)
    case $words[2] in
    check) options+=(--seed) ;;
    convert) options+=(--from --to --size) ;;
    tile) options+=(--size --join) ;;
    pack) options+=(--levels --step) ;;
    round)
        options+=(--levels)
        if ((CURRENT == 3)); then compadd -- 2 4 8 16 32 64 $options && return; fi
        ;;
    bands | far | list)
        if ((CURRENT == 3)); then compadd -- 1 2 3 4 5 --help && return; fi
        ;;
    help) _describe command commands && return ;;
    esac
    if [[ $words[CURRENT] == -* ]]; then compadd -- $options; else _files; fi
}
_terrain "$@"
