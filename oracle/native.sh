# What storm/run and speed/run share: the product as a static library. Read by them behind common.sh,
# not run.

# Copies the crates to where others may be added. What rt made of them stays behind: rt itself takes
# over what it kept of the same files on this machine.
copy_crates() {
    repository=$scratch/repository
    mkdir "$repository"
    tar -C "$root" --anchored --no-wildcards-match-slash --exclude='crates/*/out' -cf - crates crates.txt |
        tar -C "$repository" -xf - || fail "the crates cannot be copied"
}

# Adds a static library, which the product does not have, to the copy.
add_staticlib() { # NAME SOURCE DEPENDENCIES
    mkdir -p "$repository/crates/$1/src"
    cp "$2" "$repository/crates/$1/src/lib.rt"
    echo "$1 staticlib: $3" >>"$repository/crates.txt"
}

# Proves a static library of the copy and builds it, into the folder `libraries`.
make_staticlib() { # NAME
    libraries=$repository/crates/$1/out
    (cd "$repository/crates/$1" && rt lib) >"$scratch/said" 2>&1 && return 0
    cat "$scratch/said"
    fail "rt lib of $1 failed"
}
