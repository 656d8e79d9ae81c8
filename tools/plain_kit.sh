# shellcheck shell=bash
# A kit for `rt try` that compiles plainly. `unproved.sh` and `test` read this file.
#
# `rt try` compiles a program before anything is proved, but with instrumentation that makes it a hundred times slower,
# and it keeps nothing. So it is called in a folder of links to the kit, in which the commands `clang` and `ld.lld` are
# small scripts: the one leaves out the instrumentation, and the other can link the program a second time, without the
# library of the instrumentation, to keep it. The kit itself stays as it is.

# A folder of links to all that stands in another.
links() { # FROM TO
    mkdir -p "$2"
    ln -s "$1"/* "$2"
}

script() { # FILE, with its text on the standard input
    rm -f "$1"
    { echo '#!/usr/bin/env bash'; cat; } >"$1"
    chmod +x "$1"
}

# Makes such a kit. It optimises where a level is given, and keeps the program as a file where one is given.
make_kit() { # KIT [LEVEL FILE]
    local kit level=${2--O0}
    kit=$(rt doc)
    kit=$(readlink -f -- "${kit%/*}")
    links "$kit" "$1"
    rm "$1/bin" "$1/toolchain"
    links "$kit/bin" "$1/bin"
    links "$kit/toolchain" "$1/toolchain"
    rm "$1/toolchain/bin"
    links "$kit/toolchain/bin" "$1/toolchain/bin"
    # `rt` takes the folder of its own file for the kit.
    rm "$1/bin/rt" "$1/bin/rtlib.py"
    cp "$kit/bin/rt" "$kit/bin/rtlib.py" "$1/bin"
    # `rt try` asks the prover for a hint on names beside, which takes as long again, and goes without.
    script "$1/bin/rattle" <<<'exit 1'
    script "$1/toolchain/bin/clang" <<END
words=()
for it; do
    case \$it in
        -fsanitize=address) ;;
        -O[0-3]) words+=($level) ;;
        *) words+=("\$it") ;;
    esac
done
exec '$kit/toolchain/bin/clang' "\${words[@]}"
END
    [ $# -lt 3 ] || script "$1/toolchain/bin/ld.lld" <<END
'$kit/toolchain/bin/ld.lld' "\$@" || exit
words=() skips=no
for it; do
    case \$it in
        --whole-archive) skips=yes ;;
        --no-whole-archive) skips=no ;;
        program) words+=('$3') ;;
        *) [ \$skips = yes ] || words+=("\$it") ;;
    esac
done
exec '$kit/toolchain/bin/ld.lld' "\${words[@]}"
END
}
