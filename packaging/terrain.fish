# fish completion of the command terrain: commands, options, files by what a command takes.
set -l commands check sum compare shade bands near far round convert tile pack unpack info list rewrite help
complete -c terrain -n "not __fish_seen_subcommand_from $commands" -f -a check -d "there and back through writer and reader"
complete -c terrain -n "not __fish_seen_subcommand_from $commands" -f -a sum -d "one line that is equal exactly when two maps are"
complete -c terrain -n "not __fish_seen_subcommand_from $commands" -f -a compare -d "how many heights differ, where and by how much"
complete -c terrain -n "not __fish_seen_subcommand_from $commands" -f -a shade -d "the ground as people see it"
complete -c terrain -n "not __fish_seen_subcommand_from $commands" -f -a bands -d "a picture of the coefficients"
complete -c terrain -n "not __fish_seen_subcommand_from $commands" -f -a near -d "how near each cell of the coarse ground is to changing"
complete -c terrain -n "not __fish_seen_subcommand_from $commands" -f -a far -d "the distant ground of a map"
complete -c terrain -n "not __fish_seen_subcommand_from $commands" -f -a round -d "what rounding saves, and by how much heights are off"
complete -c terrain -n "not __fish_seen_subcommand_from $commands" -f -a convert -d "between PGM, PNG and RAW"
complete -c terrain -n "not __fish_seen_subcommand_from $commands" -f -a tile -d "a map cut into tiles, and back"
complete -c terrain -n "not __fish_seen_subcommand_from $commands" -f -a pack -d "the map as a ground file"
complete -c terrain -n "not __fish_seen_subcommand_from $commands" -f -a unpack -d "the map of a ground file"
complete -c terrain -n "not __fish_seen_subcommand_from $commands" -f -a info -d "what the header of a ground file says"
complete -c terrain -n "not __fish_seen_subcommand_from $commands" -f -a list -d "every band row as a line of numbers"
complete -c terrain -n "not __fish_seen_subcommand_from $commands" -f -a rewrite -d "the map in one fixed form"
complete -c terrain -n "not __fish_seen_subcommand_from $commands" -f -a help -d "more about a command"
complete -c terrain -l help -d "what a command does, with examples"
complete -c terrain -n "not __fish_seen_subcommand_from $commands" -l version -d "the version of the library"
complete -c terrain -n "__fish_seen_subcommand_from check" -l seed -x
complete -c terrain -n "__fish_seen_subcommand_from convert tile" -l size -x
complete -c terrain -n "__fish_seen_subcommand_from convert" -l from -x -a "pgm png png8 raw raw-big"
complete -c terrain -n "__fish_seen_subcommand_from convert" -l to -x -a "pgm png png8 raw raw-big"
complete -c terrain -n "__fish_seen_subcommand_from tile" -l join
complete -c terrain -n "__fish_seen_subcommand_from bands far list" -a "1 2 3 4 5"
complete -c terrain -n "__fish_seen_subcommand_from round" -a "2 4 8 16 32 64"
complete -c terrain -n "__fish_seen_subcommand_from pack" -l step -x -a "2 4 8 16 32 64"
complete -c terrain -n "__fish_seen_subcommand_from round pack" -l levels -x -a "1 2 3 4 5"
