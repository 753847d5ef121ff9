# What bench/run and bench/against share; sourced, with `me` set to the script's name.
set -euo pipefail
cd "$(dirname "${BASH_SOURCE[0]}")/.."

refuse() { # WORDS
    echo "$me: $*" >&2
    exit 2
}

check_runs() { # RUNS
    case $1 in
    '' | *[!0-9]* | 0* | ?????*) refuse "RUNS is a whole number from 1 to 9999, not '$1'" ;;
    esac
}

compile() { # WORDS
    g++ -O3 -std=c++17 -Wall -Wextra "$@"
}

# The calls of a tree as target/bench/NAME.o, its archive within. NAME is the only name that the object shows, so that
# objects of two commits link into one program.
library() { # NAME TREE CALLS
    local object=target/bench/$1.o
    compile -I "$2/include" -I bench -D LEND="$1" -D CALLS="\"$PWD/$3\"" -c bench/adapter.cpp -o "$object.part"
    ld -r --force-group-allocation "$object.part" "$2/target/staticlib/libmurgolab.a" -o "$object"
    objcopy --keep-global-symbol="$1" "$object"
}

# What rt says is shown only where it fails.
archive() { # TREE
    mkdir -p target/bench
    "$1/tools/build" archive >target/bench/rt.log 2>&1 || { cat target/bench/rt.log >&2; exit 1; }
}

this_tree() {
    archive .
    library this_tree . bench/calls.hpp
}
