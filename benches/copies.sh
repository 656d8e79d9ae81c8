# For the scripts of this folder, which source it: a repository of its own in a temporary folder, with some crates of this
# one, those that they stand on, and a program `speed` over them.

# The crates of the repository that the crate stands on, itself last, each before those that stand on it.
closure_of() { # TOP NAME
    local used
    for used in $(sed -n "s/#.*//; s/^$2\( [^:]*\)\{0,1\}:\(.*\)/\2/p" "$1/crates.txt"); do
        [ ! -d "$1/crates/$used" ] || closure_of "$1" "$used"
    done
    echo "$2"
}

# Copies the crates and what they stand on into WORK, writes its crates.txt with a line for `speed`, and builds the
# libraries. `anyhow` is a crate of the kit.
copy_crates() { # TOP WORK NAME..
    local top=$1 work=$2 name
    shift 2
    mkdir -p "$work/crates/speed/src"
    : > "$work/crates.txt"
    for name in $(for name in "$@"; do closure_of "$top" "$name"; done | awk '!seen[$0]++'); do
        cp -r "$top/crates/$name" "$work/crates/$name"
        rm -rf "$work/crates/$name/out" "$work/crates/$name/must-fail"
        sed -n "/^$name[ :]/p" "$top/crates.txt" >> "$work/crates.txt"
    done
    echo "speed: $* anyhow" >> "$work/crates.txt"
    for name in $(sed 's/[: ].*//' "$work/crates.txt"); do
        [ "$name" = speed ] || (cd "$work/crates/$name" && rt lib > /dev/null)
    done
}
