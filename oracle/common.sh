# What compare, assemblers, listings, storm/run and speed/run share. Read by them, not run.

here=$(cd "$(dirname "${BASH_SOURCE[0]}")" && pwd -P)
root=$(dirname "$here")
driver=$here/target/release/oracle

# The crates that the files of mos and the glue name.
crate_packages=(
    librust-codespan-reporting-dev librust-itertools-dev librust-log-dev librust-once-cell-dev
    librust-petgraph-dev librust-serde-derive-dev librust-serde-dev librust-smallvec-dev
)

# Ends the script with a message.
fail() {
    echo "${0##*/}: $*" >&2
    exit 2
}

# Whether Debian has a package installed.
has_package() {
    dpkg-query -W -f '${Status}\n' "$1" 2>/dev/null | grep -q 'ok installed'
}

# Installs those of some packages that are missing.
need_packages() {
    local package missing=()
    for package; do has_package "$package" || missing+=("$package"); done
    [ "${#missing[@]}" -gt 0 ] || return 0
    [ "$(id -u)" = 0 ] || fail "missing, and only root can install them: ${missing[*]}"
    apt-get update -qq || fail "apt-get update failed"
    DEBIAN_FRONTEND=noninteractive apt-get install -y -qq --no-install-recommends \
        "${missing[@]}" >&2 || fail "apt-get install failed"
}

# Installs what the files of mos are compiled with, if it is missing.
need_cargo() {
    need_packages "${crate_packages[@]}"
    command -v cargo >/dev/null || need_packages cargo rustc
}

# Builds the driver. A lock file of another version of cargo would stop it.
build_driver() {
    need_cargo
    rm -f "$here/Cargo.lock"
    (cd "$here" && cargo build --release --offline --quiet --target-dir target) ||
        fail "the driver does not compile"
}

# Makes a folder that is removed when the script ends.
make_scratch() {
    scratch=$(mktemp -d) || fail "no temporary folder"
    trap 'rm -rf "$scratch"' EXIT
}

# Whether the repository has the replay program of a kind.
has_replay() {
    [ -f "$root/crates/replay_$1/src/main.rt" ]
}

# Proves and builds a program, where something has changed; `program` is then its executable. rt
# builds what it then runs: here on no input.
build_program() { # NAME
    program=$root/crates/$1/out/$1
    (cd "$root/crates/$1" && rt run) </dev/null >"$scratch/said" 2>&1 ||
        fail "$1 is not proved: $(tail -n 3 "$scratch/said")"
}

# Runs the replay program of a kind on a file of questions, and holds what it writes to a file of
# expected answers. rt proves and builds the program first, where something has changed. What the
# program wrote goes to the file `ours`, and what rt said to the file `said`.
replay() { # KIND QUESTIONS EXPECTED
    ours=$scratch/$1.ours
    said=$scratch/$1.said
    (cd "$root/crates/replay_$1" && rt run) <"$2" >"$ours" 2>"$said" && cmp -s "$ours" "$3"
}
