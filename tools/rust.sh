# shellcheck shell=bash
# Sourced by ../compare-runs, ../measure, ../bindings/run, fooled and fuzz-verdict: builds packages of the workspace at the top, with the given Rust
# files where they are there.
# Wants `here`, the repository's folder; `asked_from`, where the command was called; `said`, how its lines begin. What is missing is said in one line.
# Cargo is run on a copy and with a home of its own, so that all it writes lands below target/rust; the two folders of `built` and `timed` have
# the programs of the profiles that compare and that measure. `rt ci` refuses a repository with a link in it, or with a .rt or .antt file outside of the
# crates, below target/ too: what needs such files makes them in a folder outside.
root=$here
# shellcheck source=tools/made.sh
. "$here/tools/made.sh"
rust=$here/target/rust
built=$rust/build/checked
timed=$rust/build/release
sources=/usr/share/cargo/registry
crates=(indexmap itertools num-complex num-traits num_enum serde serde_derive)
config=()
laid=

skip_rust() {
    echo "$said is skipped: $1"
    return 1
}

# The copy, made before the first package is built. Without the Rust's files it is without the packages that want them; where Debian has other
# versions than the lock file names, it is without that.
lay_out() {
    rm -rf "$rust/tree"
    mkdir -p "$rust/tree"
    (cd "$here" && cp -pR Cargo.toml Cargo.lock include bindings lines compare oracle bench "$rust/tree/")
    if [ ${#config[@]} -eq 0 ]; then
        sed -i 's/, "oracle", "bench"//' "$rust/tree/Cargo.toml"
        rm -rf "$rust/tree/oracle" "$rust/tree/bench"
    fi
    run_cargo metadata --format-version 1 >/dev/null 2>&1 || rm "$rust/tree/Cargo.lock"
    laid=1
}

run_cargo() { # WORD...
    (
        cd "$rust/tree" || exit 1
        CARGO_HOME=$rust/cargo CARGO_TARGET_DIR=$rust/build cargo "$@" --offline ${config[@]+"${config[@]}"}
    )
}

# Builds a package of the copy. What cargo says is kept in target/rust/PACKAGE.log.
build() { # PACKAGE PROFILE [WORD...]
    local name=$1 profile=$2
    shift 2
    [ -n "$laid" ] || lay_out
    run_cargo build -j1 --package "$name" --profile "$profile" "$@" >"$rust/$name.log" 2>&1
}

# The same, or all that cargo said and the end.
need() { # PACKAGE PROFILE [WORD...]
    build "$@" || { cat "$rust/$1.log"; exit 1; }
}

# The library in the process that compares, where this machine can link its archive: sets `archive`, what `compare` is told of it, and where that is
# `-`, `without`, why.
find_archive() {
    archive=- without=
    if [ "$(uname -m)" != x86_64 ]; then
        without="it links only into x86-64 programs"
    elif ! [ -e "$archive_file" ]; then
        without="it is not built (rt lib in crates/bawersun)"
    elif ! is_new bawersun "$archive_file"; then
        without="it is older than the crates (rt lib in crates/bawersun)"
    else
        archive=archive
        export BAWERSUN_ARCHIVE=${archive_file%/*}
    fi
}

# Proves the crate and writes its archive for x86-64, where that is not as new as the crates, or says why not and ends.
make_archive() {
    mkdir -p "$here/target"
    is_new bawersun "$archive_file" || make_by_rt bawersun "$archive_file" lib >"$here/target/archive.log" 2>&1 || { cat "$here/target/archive.log"; exit 1; }
}

# The comparer, with the archive where it can be had.
need_compare() {
    find_archive
    if [ "$archive" = - ]; then need compare checked; else need compare checked --features archive; fi
}

lacking() {
    local name
    for name in "${crates[@]}"; do
        compgen -G "$sources/$name-[0-9]*" >/dev/null || { echo "$name"; return; }
    done
}

install_packages() {
    [ -n "$(lacking)" ] || return 0
    command -v apt-get >/dev/null || skip_rust "Debian's package of $(lacking) is missing, and so is apt-get" || return 1
    [ "$(id -u)" = 0 ] || skip_rust "Debian's package of $(lacking) is missing, and only root can install it" || return 1
    local packages=() name
    for name in "${crates[@]}"; do packages+=("librust-${name//_/-}-dev"); done
    mkdir -p "$rust"
    export DEBIAN_FRONTEND=noninteractive
    if ! { apt-get update && apt-get install -y --no-install-recommends "${packages[@]}"; } >"$rust/apt.log" 2>&1; then
        skip_rust "Debian's packages could not be installed (target/rust/apt.log)"
        return 1
    fi
    [ -z "$(lacking)" ] || skip_rust "$(lacking) is still missing after installing Debian's packages"
}

# The Rust files name constants that num-complex has from 0.4.4 on. An older one is copied and gets them appended.
num_complex() {
    local folder
    folder=$(compgen -G "$sources/num-complex-0.4*" | sort -V | tail -n 1)
    grep -q 'pub const I: ' "$folder/src/lib.rs" && return
    rm -rf "$rust/num-complex"
    cp -pR "$folder" "$rust/num-complex"
    cat "$here/oracle/stand-ins/num_complex_constants.rs" >>"$rust/num-complex/src/lib.rs"
    touch -r "$folder/src/lib.rs" "$rust/num-complex/src/lib.rs"
    echo "patch.crates-io.num-complex.path=\"$rust/num-complex\""
}

# Sets ZIXY_SRC and `config`, the words with which cargo finds everything.
find_rust() {
    local folder=${ZIXY_SRC:-$here/../shared/docs/src} patch
    export ZIXY_SRC
    ZIXY_SRC=$(cd "$asked_from" && cd "$folder" 2>/dev/null && pwd -P) || true
    [ -f "$ZIXY_SRC/zixy/src/qubit/pauli/cmpnt_major/products.rs" ] || skip_rust "there are no Rust files in $folder" || return 1
    install_packages || return 1
    mkdir -p "$rust"
    config=(--config 'source.crates-io.replace-with="debian"' --config "source.debian.directory=\"$sources\"")
    patch=$(num_complex)
    [ -z "$patch" ] || config+=(--config "$patch")
}
