# shellcheck shell=bash
# Sourced by the scripts beside it, at the repository's root: finds or builds what they use.
#   archive  the proved library: SPACE_ARCHIVE, or what `rt lib` writes in crates/space
#   program  the proved program: SPACE_PROGRAM, or what `rt run` writes in crates/viewer
#   order_program  the one for exports: SPACE_ORDER_PROGRAM, or what `rt run` writes in crates/study_order
#   out      where everything of the host is built
#   built    where the Rust programs are then
out=$PWD/target/host
mkdir -p "$out"
export CARGO_TARGET_DIR=$out/cargo
# shellcheck disable=SC2034
built=$CARGO_TARGET_DIR/release

missing_or_old() { # FILE: it is not there, or older than crates.txt or something in a crate that is not in its out/
    [ ! -f "$1" ] || [ crates.txt -nt "$1" ] ||
        [ -n "$(find crates -mindepth 2 -name out -prune -o -newer "$1" -print -quit)" ]
}

rt_makes() { # FILE COMMAND: has `rt COMMAND` make the file in its crate, if need be. A program is run there, on its stdin
    local file=$1 command=$2 crate=${1%/out/*} input=/dev/null log
    missing_or_old "$file" || return 0
    log=$out/rt-$command-${crate##*/}.log
    [ ! -f "$crate/stdin" ] || input=$crate/stdin
    echo "rt $command in $crate"
    (cd "$crate" && rt "$command") < "$input" > "$log" 2>&1 || { tail -n 20 "$log"; return 1; }
    touch "$file" # `rt` leaves it as it is where nothing that it is made of has changed
}

find_archive() {
    archive=${SPACE_ARCHIVE:-crates/space/out/libspace.a}
    [ -n "${SPACE_ARCHIVE:-}" ] || rt_makes "$archive" lib || return 1
    [ -f "$archive" ] || { echo "there is no $archive"; return 1; }
    archive=$(realpath "$archive")
    export SPACE_ARCHIVE=$archive
}

made_program() { # NAME GIVEN: says which file the program is, the one given or what rt writes
    local file=${2:-crates/$1/out/$1}
    [ -n "$2" ] || rt_makes "$file" run >&2 || return 1
    [ -x "$file" ] || { echo "there is no $file" >&2; return 1; }
    echo "$file"
}

# shellcheck disable=SC2034
find_programs() {
    program=$(made_program viewer "${SPACE_PROGRAM:-}") || return 1
    order_program=$(made_program study_order "${SPACE_ORDER_PROGRAM:-}") || return 1
}

build_rust() { # FOLDER [FLAGS]: the programs of host/FOLDER, into $built
    local folder=$1
    shift
    cargo build --quiet --release --offline --manifest-path "host/$folder/Cargo.toml" "$@"
}

strict=(-Wall -Wextra -Wpedantic -Wconversion -Werror)

build_c() { # NAME [FLAGS]: target/host/NAME from host/NAME.c
    local name=$1
    shift
    ${CC:-cc} -std=c99 "${strict[@]}" -O2 -g "$@" -o "$out/$name" "host/$name.c" "$archive"
}
