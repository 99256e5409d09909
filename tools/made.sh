# shellcheck shell=sh
# Sourced by ../run, ../install and rust.sh, with `root` the repository's folder: what `rt` makes of a crate, and whether it is as new as its sources.
# `rt run` leaves a program in crates/NAME/out/NAME, `rt lib` the archive in crates/bawersun/out/libbawersun.a. `rt ci` takes each out/ away first; it
# leaves the programs that it proved, as LLVM compiles them, and no archive. So nothing is copied from there, and what is older than a source is made anew.
archive_file=$root/crates/bawersun/out/libbawersun.a

# NAME and the crates that it reaches, by crates.txt.
reached() { # NAME
    NAME=$1 awk '
        { sub(/#.*/, ""); i = index($0, ":"); if (!i) next
          split(substr($0, 1, i - 1), words, " "); deps[words[1]] = substr($0, i + 1) }
        function visit(n,   k, m, a) {
            if (!(n in deps) || seen[n]++) return
            print n
            m = split(deps[n], a, " ")
            for (k = 1; k <= m; k++) visit(a[k])
        }
        END { visit(ENVIRON["NAME"]) }' "$root/crates.txt"
}

# Whether FILE is there, and nothing that the crate NAME is made from is newer.
is_new() { # NAME FILE
    [ -f "$2" ] || return 1
    [ -z "$(find "$root/crates.txt" -newer "$2")" ] || return 1
    for crate in $(reached "$1"); do
        for part in src specs proofs; do
            dir=$root/crates/$crate/$part
            [ ! -d "$dir" ] || [ -z "$(find "$dir" -newer "$2" -print | head -n 1)" ] || return 1
        done
    done
}

# Has `rt WORD...` make FILE in the folder of the crate NAME. FILE then has the time of the beginning, so that an edit meanwhile is newer.
make_by_rt() { # NAME FILE WORD...
    crate_folder=$root/crates/$1 made_file=$2 begun=$(mktemp)
    shift 2
    made_status=0
    (cd "$crate_folder" && rt "$@") </dev/null || made_status=$?
    [ "$made_status" -ne 0 ] || touch -c -r "$begun" "$made_file"
    rm -f "$begun"
    return "$made_status"
}
