#!/usr/bin/env bash
# Checks the space from outside, over its C boundary: host/check.sh. The first failure ends it with a non-zero status.
set -euo pipefail
cd "$(dirname "$0")/.."
. host/build.sh

FRAMES=2000000         # of the space, compared with the reference
TUNED_FRAMES=300000    # of each tuned peer
FENCED_TRAYS=20000     # damaged trays with guard pages
CHECKED_TRAYS=400      # damaged trays under valgrind or the address sanitizer
RANDOM_TRAYS=60        # given to the program and to host/run_tray.c
EXPORTS=200000         # whose orders are compared with the reference's, of the space and of the tuned peer
RANDOM_EXPORTS=60      # given to the program for exports
SETUPS=100000          # whose trials are compared with the reference's
LISTS=20000            # of trays, whose waiting times are compared with the reference's
READ_ONLY_BYTES=556    # of the archive's data: the jumps of three matches, constants, two tables of refusals' numbers

fail() {
    echo "FAILED: $*"
    exit 1
}

same() { # WHAT WANTED GOT
    cmp -s "$2" "$3" && return
    diff "$2" "$3" | head -n 10 || true
    fail "$1"
}

has() {
    command -v "$1" > /dev/null
}

run() { # BY: a tray from standard input, by the library, the program or the reference
    case $1 in
        library) "$out/run_tray" ;;
        program) "$program" ;;
        reference) "$built/test_trays" reference ;;
    esac
}

check_builds() {
    find_archive || fail "no archive"
    find_programs || fail "no program"
    build_rust tray || fail "host/tray"
    build_rust harness || fail "host/harness"
    cargo test --quiet --offline --manifest-path host/harness/Cargo.toml > "$out/test.log" 2>&1 ||
        { tail -n 30 "$out/test.log"; fail "the harness's own tests"; }
    for name in example panes order trial sittings run_tray boundary_test damaged; do
        build_c "$name" || fail "host/$name.c"
    done
    ! has clang || clang -std=c99 -fsyntax-only "${strict[@]}" host/*.c || fail "clang on host/*.c"
    ! has g++ || g++ -x c++ -fsyntax-only "${strict[@]}" host/space_frames.h || fail "g++ on the headers"
    echo "ok: built, and the harness finds wrong spaces"
}

# Read-only memory is full (document 02, T-06): what the archive keeps there is known, and no table of lengths is in it.
check_read_only() {
    local bytes
    bytes=$(size -A "$archive" | awk '/^\.(rodata|data\.rel\.ro)/ { sum += $2 } END { print sum + 0 }')
    [ "$bytes" -eq "$READ_ONLY_BYTES" ] || fail "$bytes bytes of read-only data in the archive, not $READ_ONLY_BYTES"
    echo "ok: $bytes bytes of read-only data in the archive"
}

check_hosts() {
    local name
    for name in example panes order trial sittings; do
        "$out/$name" > "$out/$name.out" || fail "host/$name.c"
        same "host/$name.c's output" "host/$name.expected" "$out/$name.out"
    done
    "$out/boundary_test" > "$out/boundary_test.out" || fail "host/boundary_test.c"
    same "the sample tray's records, read in C" examples/sample.expected "$out/boundary_test.out"
    echo "ok: example hosts, C boundary"
}

# The example hosts from an installed archive, with nothing of host/ but their own files.
check_installed() {
    local name to=$out/installed
    local where=("-I$to/include" "-L$to/lib" -lspace)
    rm -rf "$to"
    PREFIX=$to host/install.sh > "$out/install.log" || fail "host/install.sh"
    mkdir "$to/own"
    cp host/example.c host/panes.c host/order.c host/trial.c host/sittings.c host/print_record.h "$to/own"
    if has pkg-config; then
        read -ra where < <(PKG_CONFIG_PATH=$to/lib/pkgconfig pkg-config --cflags --libs space) || fail "space.pc"
    fi
    for name in example panes order trial sittings; do
        ${CC:-cc} -std=c99 -o "$to/own/$name" "$to/own/$name.c" "${where[@]}" || fail "$name.c, installed"
        "$to/own/$name" > "$to/own/$name.out" || fail "$name.c, installed"
        same "$name.c, installed" "host/$name.expected" "$to/own/$name.out"
    done
    echo "ok: installed, and the example hosts built from there"
}

# Every example by the library, by the program and by the reference.
check_examples() {
    local text name by examples=0 to=$out/examples
    mkdir -p "$to"
    for text in examples/*.txt; do
        name=$(basename "$text" .txt)
        "$built/tray" assemble "$text" > "$to/$name.tray" || fail "$text"
        for by in library program reference; do
            run $by < "$to/$name.tray" > "$to/$name.out" || fail "$text by the $by"
            if [ -f "examples/$name.expected-end" ]; then # the last lines only
                tail -n "$(wc -l < "examples/$name.expected-end")" "$to/$name.out" > "$to/$name.end"
                same "$text by the $by" "examples/$name.expected-end" "$to/$name.end"
            else
                same "$text by the $by" "examples/$name.expected" "$to/$name.out"
            fi
        done
        examples=$((examples + 1))
    done
    echo "ok: $examples example trays"
}

# The programs' own trays are what their texts stand for.
check_texts() {
    local text texts=0
    for text in crates/viewer*/tray.txt; do
        "$built/tray" assemble "$text" > "$out/text.tray" || fail "$text"
        cmp "$(dirname "$text")/stdin" "$out/text.tray" || fail "$text and its stdin"
        texts=$((texts + 1))
    done
    echo "ok: the trays of $texts programs"
}

# What the manual quotes from examples/ is what stands there: blocks whose first line names the file. Its blocks of C
# are whole files.
check_manual() {
    local quote source quotes=0 sources=0
    rm -rf "$out/manual"
    mkdir -p "$out/manual/examples"
    awk -v to="$out/manual/" '/^```/ && file != "" { file = ""; next }
                              /^```examples\// { file = to substr($0, 4); next }
                              /^```c$/ { file = to (++sources) ".c"; next }
                              file != "" { print > file }' docs/MANUAL.md
    for quote in "$out"/manual/examples/*; do
        same "the manual's $(basename "$quote")" "examples/$(basename "$quote")" "$quote"
        quotes=$((quotes + 1))
    done
    for source in "$out"/manual/*.c; do
        ${CC:-cc} -std=c99 "${strict[@]}" -I host -c -o "${source%.c}.o" "$source" || fail "the manual's C: $source"
        sources=$((sources + 1))
    done
    echo "ok: $quotes quotations and $sources sources in the manual"
}

says() { # WHAT: on standard error, in one line
    [ "$(cat "$out/program.error")" = "viewer: $1" ] || fail "the program does not say: $1"
}

# The program's output is a pipe: full and not blocking, or closed by its reader, also while the caller ignores SIGPIPE.
into_pipe() { # full|closed|ignored TRAY
    python3 - "$program" "$@" 2> "$out/program.error" <<'END'
import os, subprocess, sys
program, pipe, tray = sys.argv[1:]
reader, writer = os.pipe()
if pipe == "full":
    os.set_blocking(writer, False)
    try:
        while True:
            os.write(writer, bytes(4096))
    except BlockingIOError:
        pass
else:
    os.close(reader)
with open(tray, "rb") as frames:
    restored = pipe != "ignored"
    subprocess.run([os.path.abspath(program)], stdin=frames, stdout=writer, restore_signals=restored, check=True)
END
}

# The program's exit status is 0 all the same: it says on standard error what it could not read or write.
check_program() {
    local pipe tray=crates/viewer/stdin
    "$program" < "$tray" > "$out/program.out" 2> "$out/program.error"
    [ ! -s "$out/program.error" ] || fail "the program speaks on standard error"
    "$program" < host > "$out/program.out" 2> "$out/program.error" # a folder
    says "cannot read standard input"
    [ ! -s "$out/program.out" ] || fail "the program answers what it could not read"
    "$program" <&- > "$out/program.out" 2> "$out/program.error"
    says "cannot read standard input"
    [ ! -s "$out/program.out" ] || fail "the program answers what it could not read"
    "$program" < "$tray" >&- 2> "$out/program.error"
    says "cannot write all of standard output"
    "$program" < "$tray" > /dev/full 2> "$out/program.error"
    says "cannot write all of standard output"
    for pipe in full closed ignored; do
        into_pipe $pipe "$tray" || fail "the program into a $pipe pipe: $(cat "$out/program.error")"
        says "cannot write all of standard output"
    done
    echo "ok: the program says what it cannot read or write"
}

check_random_trays() {
    local seed by
    for seed in $(seq "$RANDOM_TRAYS"); do
        "$built/test_trays" random "$seed" > "$out/random.tray"
        for by in library program; do
            run $by < "$out/random.tray" > "$out/random.$by" || fail "random tray $seed by the $by"
        done
        same "random tray $seed by the program" "$out/random.library" "$out/random.program"
    done
    echo "ok: $RANDOM_TRAYS random trays, damaged ones too, by the program"
}

order_says() { # WHAT: the program for exports, on standard error, in one line
    [ "$(cat "$out/order.error")" = "study_order: $1" ] || fail "study_order does not say: $1"
}

same_order() { # WHAT: the export in target/host/export, by the program and by the reference
    "$built/test_trays" order < "$out/export" > "$out/order.reference" || fail "$1 by the reference"
    "$order_program" < "$out/export" > "$out/order.program" 2> "$out/order.error" || fail "$1 by the program"
    [ ! -s "$out/order.error" ] || fail "$1: study_order speaks on standard error"
    same "$1 by the program" "$out/order.reference" "$out/order.program"
}

# Exports: every example by the tool, the reference and the program, and random ones by the last two.
check_exports() {
    local text seed pair exports=0
    for text in examples/*.export; do
        "$built/tray" order "$text" --bytes > "$out/export" || fail "$text"
        same_order "$text"
        "$built/tray" order "$text" --raw > "$out/order.raw" || [ $? -eq 3 ] || fail "$text"
        same "$text by the tool" "$out/order.reference" "$out/order.raw"
        exports=$((exports + 1))
    done
    for pair in study_order:order-several study_order_refused:order-refused; do
        "$built/tray" order "examples/${pair#*:}.export" --bytes | cmp - "crates/${pair%:*}/stdin" || fail "$pair"
    done
    for seed in $(seq "$RANDOM_EXPORTS"); do
        "$built/test_trays" export "$seed" > "$out/export" || fail "random export $seed"
        same_order "random export $seed"
    done
    "$order_program" < host > "$out/order.program" 2> "$out/order.error" # a folder
    order_says "cannot read standard input"
    [ ! -s "$out/order.program" ] || fail "study_order answers what it could not read"
    "$order_program" < crates/study_order/stdin > /dev/full 2> "$out/order.error"
    order_says "cannot write all of standard output"
    echo "ok: $exports example exports, $RANDOM_EXPORTS random ones, by the program for exports"
}

check_damaged() {
    local checker=valgrind
    "$out/damaged" "$FENCED_TRAYS" 1 fence > "$out/fenced.out" || fail "damaged trays with guard pages"
    if has valgrind; then
        valgrind -q --error-exitcode=9 "$out/damaged" "$CHECKED_TRAYS" 2 > "$out/checked.out" || fail "valgrind"
    else
        checker="address sanitizer"
        build_c damaged -fsanitize=address
        "$out/damaged" "$CHECKED_TRAYS" 2 > "$out/checked.out" || fail "address sanitizer"
    fi
    echo "ok: damaged trays, guard pages: $(cat "$out/fenced.out")"
    echo "ok: damaged trays, $checker: $(cat "$out/checked.out")"
}

# A discrepancy is a text that can be run: it is left in target/host/differ-NAME.txt. That the look-ups add up (document
# 02, T-11) is checked after every frame; the report has the sums of all trays and histories. That a tray's run keeps
# within its bounds (T-10) is checked of every tray; the report has how near the runs came.
check_differ() { # NAME FRAMES: the last word of the name is differ's
    local sums bounds subject=${1##* }
    local report=$out/differ-$subject.txt
    "$built/differ" "$2" 1 "$subject" 2> "$out/differ.progress" > "$report" ||
        { head -n 60 "$report"; fail "the $1 and the reference differ, or too little occurred: $report"; }
    sums=$(grep '^look-ups not refused: [1-9][0-9]* = ' "$report") || fail "the $1: its look-ups do not add up: $report"
    bounds=$(grep '^bounds kept in [1-9][0-9]* trays' "$report") || fail "the $1: no bounds were kept: $report"
    echo "ok: the $1, $(tail -n 2 "$report" | head -n 1)"
    echo "ok: the $1, $sums"
    echo "ok: the $1, $bounds"
}

# A discrepancy is a text for `tray order`, left in target/host/differ-orders-NAME.txt.
check_differ_orders() { # NAME: space or tuned
    local report=$out/differ-orders-$1.txt
    "$built/differ_orders" "$EXPORTS" 1 "$1" > "$report" ||
        { head -n 60 "$report"; fail "the orders of $1 and the reference differ, or too little occurred: $report"; }
    echo "ok: orders, $1: $(tail -n 1 "$report")"
}

# A discrepancy is a text for `tray trial`, left in target/host/differ-trials.txt.
check_differ_trials() {
    local report=$out/differ-trials.txt
    "$built/differ_trials" "$SETUPS" 1 space > "$report" ||
        { head -n 60 "$report"; fail "the trials and the reference's differ, or too little occurred: $report"; }
    echo "ok: trials, $(tail -n 1 "$report")"
}

# A discrepancy is texts of trays for `tray sittings`, left in target/host/differ-sittings.txt.
check_differ_sittings() {
    local report=$out/differ-sittings.txt
    "$built/differ_sittings" "$LISTS" 1 space > "$report" ||
        { head -n 60 "$report"; fail "the waiting times and the reference's differ, or too little occurred: $report"; }
    echo "ok: waiting times, $(tail -n 1 "$report")"
}

check_builds
check_read_only
check_hosts
check_installed
check_examples
check_texts
check_manual
check_program
check_random_trays
check_exports
check_damaged
check_differ space "$FRAMES"
check_differ "tuned rows" "$TUNED_FRAMES"
check_differ "tuned columns" "$TUNED_FRAMES"
check_differ_orders space
check_differ_orders tuned
check_differ_trials
check_differ_sittings
echo "host/check.sh: all passed"
