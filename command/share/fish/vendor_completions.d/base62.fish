# SPDX-License-Identifier: MIT
# Copyright (c) 2026 the maintainers of base62 for Rattle

# Completes the arguments of base62 in fish: what its help lists.
command -q base62; or exit
complete -c base62 -f
for subcommand in help encode decode range
    set -l condition "__fish_seen_subcommand_from $subcommand"
    test $subcommand = help; and set condition 'not __fish_seen_subcommand_from encode decode range'
    for line in (base62 help $subcommand 2>/dev/null)
        if set -l found (string match -r '^  -(.), --([a-z-]+)( [A-Z]+|)  +(.*)' -- $line)
            set -l value
            test -z $found[4]; or set value -x
            complete -c base62 -n $condition -s $found[2] -l $found[3] $value -d $found[5]
        else if set -l found (string match -r '^  ([a-z]+) \[[A-Z]+\][.]*  +(.*)' -- $line)
            complete -c base62 -n $condition -a $found[2] -d $found[3]
        end
    end
end
