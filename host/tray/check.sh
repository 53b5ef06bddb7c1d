#!/usr/bin/env bash
# Checks the tool: its own tests, all lessons, all expectations, waiting lists, bounds, orders, trials, waiting times, all
# drawings. The first failure ends it with a non-zero status. Needs cargo, a linker, python3 and the proved archive; no
# browser.
set -euo pipefail
cd "$(dirname "$0")/../.."
. host/build.sh
to=$out/tool
rm -rf "$to"
mkdir -p "$to"

fail() {
    echo "FAILED: $*"
    exit 1
}

find_archive || fail "no archive"
cargo test --quiet --release --offline --manifest-path host/tray/Cargo.toml > "$to/test.log" 2>&1 ||
    { tail -n 40 "$to/test.log"; fail "the tool's own tests"; }
build_rust tray || fail "host/tray"
tray=$built/tray

# Lessons: every script and every history must expect something, and get it.
lessons=0
for lesson in examples/lessons/*; do
    name=$(basename "$lesson")
    case $lesson in
        *.panes) verb=(explore "$lesson" -o "$to/$name.html") ;;
        *.txt) verb=(run "$lesson") ;;
        *) fail "$lesson is no lesson" ;;
    esac
    grep -q '^ *expect ' "$lesson" || fail "$lesson expects nothing"
    "$tray" "${verb[@]}" > "$to/$name.out" 2> "$to/$name.err" || { cat "$to/$name.err"; fail "$lesson"; }
    lessons=$((lessons + 1))
done

prints() { # STORED WORDS: `tray WORDS` prints what is stored
    local stored=$1
    shift
    "$tray" "$@" > "$to/stored.out" || fail "$stored"
    cmp -s "$stored" "$to/stored.out" || { diff "$stored" "$to/stored.out" || true; fail "$stored"; }
}

# The waiting lists stored beside the examples; after how many frames, the first line tells.
lists=0
for list in examples/*.waiting; do
    read -r _ after _ < "$list"
    prints "$list" waiting "${list%.waiting}.txt" --after "$after"
    lists=$((lists + 1))
done

# The bounds stored there, with what the runs need in fact.
bounds=0
for stored in examples/*.bounds; do
    prints "$stored" bounds "${stored%.bounds}.txt"
    bounds=$((bounds + 1))
done

told() { # STORED WORDS: `tray WORDS` prints what is stored; what is named so is refused
    local stored=$1 status=0
    shift
    "$tray" "$@" > "$to/told.out" || status=$?
    case $status:$stored in
        0:*-refused* | 3:*-refused*) [ "$status" -eq 3 ] || fail "$stored is not refused" ;;
        0:*) ;;
        *) fail "$stored ended with $status" ;;
    esac
    cmp -s "$stored" "$to/told.out" || { diff "$stored" "$to/told.out" || true; fail "$stored"; }
}

# The orders stored beside the exports.
orders=0
for order in examples/*.order; do
    told "$order" order "${order%.order}.export"
    orders=$((orders + 1))
done

# The tables stored beside the setups of trials; and the rounds of a setup are a tray that runs, and is drawn.
trials=0
for table in examples/*.table; do
    setup=${table%.table}.trial
    told "$table" trial "$setup"
    trials=$((trials + 1))
    case $setup in *-refused* | *-hold-nears-lease*) continue ;; esac # they have no rounds, or those of a range
    "$tray" trial "$setup" --history 12 > "$to/rounds.txt" || fail "the rounds of $setup"
    "$tray" run "$to/rounds.txt" > "$to/rounds.out" || fail "the rounds of $setup as a tray"
    "$tray" trial "$setup" --draw 12 -o "$to/$(basename "$setup").svg" || fail "the rounds of $setup, drawn"
done
[ "$trials" -eq "$(find examples -name '*.trial' | wc -l)" ] || fail "a setup has no table"

# The waiting times stored beside the sittings; and trays handed in as bytes, one by one, have the same figures as all in
# one text.
times=0
for stored in examples/*.times; do
    told "$stored" sittings "${stored%.times}.sittings"
    times=$((times + 1))
done
[ "$times" -eq "$(find examples -name '*.sittings' | wc -l)" ] || fail "sittings have no waiting times"
sitting_trays=()
: > "$to/all.sittings"
for text in examples/course-*.txt; do
    tray_file=$to/$(basename "$text" .txt).tray
    "$tray" assemble "$text" > "$tray_file" || fail "$text"
    sitting_trays+=("$tray_file")
    { echo "sitting $text"; cat "$text"; } >> "$to/all.sittings"
done
"$tray" sittings --words "$to/all.sittings" > "$to/all.words" || fail "waiting times of a text"
"$tray" sittings --words "${sitting_trays[@]}" | cmp - "$to/all.words" || fail "waiting times of trays as bytes"

# Every example is drawn; a tray that is refused as a whole has no drawing.
drawings=0
for text in examples/*.txt examples/lessons/*.txt; do
    name=$(basename "$text" .txt)
    for ending in html svg; do
        status=0
        "$tray" draw "$text" -o "$to/$name.$ending" 2> "$to/$name.err" || status=$?
        case $status:$name in
            0:* | 3:refusal-01) drawings=$((drawings + 1)) ;;
            3:refusal-15* | 3:refusal-16*) ;;
            *) cat "$to/$name.err"; fail "$text as $ending" ;;
        esac
    done
done
# The pictures in docs/ are what the tool draws of the texts that they are named after; one is of an arc.
for picture in docs/*.svg; do
    name=$(basename "$picture" .svg)
    text=examples/$name.txt
    [ -f "$text" ] || text=examples/lessons/$name.txt
    case $name in
        clock-face) "$tray" place 1:00 to 3:00 -o "$to/$name.svg" > "$to/$name.out" ;;
        *) "$tray" draw "$text" -o "$to/$name.svg" ;;
    esac
    cmp -s "$picture" "$to/$name.svg" || fail "$picture is not what the tool draws"
done
PATH=$built:$PATH python3 host/tray/teaching.py docs/TEACHING.md . "$to/teaching" ||
    fail "docs/TEACHING.md"
python3 - "$to" "$to/teaching" docs <<'END' || fail "a drawing is not well formed"
import glob, sys, xml.dom.minidom
files = [file for folder in sys.argv[1:] for ending in ("html", "svg") for file in glob.glob(f"{folder}/*.{ending}")]
for file in files:
    xml.dom.minidom.parse(file)
END
echo "ok: tray: tests, $lessons lessons, $lists waiting lists, $bounds bounds, $orders orders, $trials trials, $times waiting times, $drawings drawings, the course"
