#!/usr/bin/env bash
# Runs the program on each example, and compares what it writes with what is stored beside the two texts:
#   report.txt, report.json   the whole output, as text and as JSON
#   lines.txt                 lines of a report that is too long to store
#   error.txt                 what is told of a bad line, with nothing written
# A folder without its two texts, or with none of these stored, fails. made/N.txt is the summary of `make N`. A folder of `checks` has a report of
# the texts of `first` with one thing wrong, and in error.txt what a check tells of it.
#
# Each example is run with 1, 4 and 8 workers. With one worker the whole report is compared, with several the parts behind its events, where
# these do not depend on the order in which regions tick. Each report, the stored ones too, is checked: it has to be legal.
set -euo pipefail
cd "$(dirname "$(readlink -f "${BASH_SOURCE[0]}")")/.."

work=$(mktemp -d)
trap 'rm -rf "$work"' EXIT
checked=0
failed=0

# fails NAME WORDS..: counts a failure, and says what is wrong
fails() {
    local name=$1
    shift
    echo "examples: $name: $*" >&2
    failed=$((failed + 1))
}

# is NAME COMMAND..: counts a comparison, and says where the command does not hold
is() {
    local name=$1
    shift
    checked=$((checked + 1))
    "$@" || fails "$name" "not as stored"
}

# run OUTPUT WORDS..: the program's output and its complaint, and its exit code in `code`
run() {
    local out=$1
    shift
    code=0
    ./fol "$@" >"$out" 2>"$work/err" || code=$?
}

# draw OUTPUT WORLD REPORT: the picture of a report and the complaint, and the exit status in `code`
draw() {
    local out=$1
    shift
    code=0
    ./fol-map "$@" >"$out" 2>"$work/err" || code=$?
}

not_drawn() {
    [ "$code" = 10 ] && [ ! -s "$work/out" ] && [ "$(cat "$work/err")" = "fol-map: report line $1" ]
}

bad_line_told() {
    local expected=4
    if grep -q '^fol: world' "$1/error.txt"; then
        expected=3
    fi
    [ "$code" = "$expected" ] && [ ! -s "$work/out" ] && cmp "$work/err" "$1/error.txt"
}

legal() {
    [ "$code" = 0 ] && [ ! -s "$work/err" ] && [ "$(cat "$work/said")" = legal ]
}

bad_report_told() {
    local expected=12
    case "$(cat "$1/error.txt")" in
    "fol: text "*) expected=10 ;;
    "fol: event "*) expected=11 ;;
    esac
    [ "$code" = "$expected" ] && [ ! -s "$work/said" ] && cmp "$work/err" "$1/error.txt"
}

no_command() {
    [ "$code" = 2 ] && [ ! -s "$work/out" ] && [ "$(cat "$work/err")" = "fol: words" ]
}

same() {
    [ "$code" = 0 ] && [ ! -s "$work/err" ] && cmp "$1" "$2"
}

# each line of the second is one of the first
has_lines() {
    [ "$code" = 0 ] && [ -s "$2" ] && ! grep -vxF -f "$1" "$2"
}

# the parts of a report behind its events
state() {
    sed -n '/^regions /,$p' "$1"
}

same_state() {
    [ "$code" = 0 ] && [ ! -s "$work/err" ] && cmp <(state "$1") <(state "$2")
}

# where the order of the ticks decides what stands at the end
order_decides() {
    [ "$1" = examples/travel ] || [ "$1" = examples/rules/lines_inside_a_run ]
}

# has_one FOLDER NAME..: one of these files is in the folder
has_one() {
    local folder=$1 name
    shift
    for name in "$@"; do
        [ ! -f "$folder/$name" ] || return 0
    done
    return 1
}

# judge NAME FOLDER REPORT: a report of the two texts of a folder has to be legal
judge() {
    run "$work/said" check "$2/world.txt" "$2/script.txt" "$3"
    is "$1, its report checked" legal
}

# compare FOLDER: runs the two texts of an example, and compares with all that is stored there
compare() {
    run "$work/out" run "$1/world.txt" "$1/script.txt" 1
    [ ! -f "$1/error.txt" ] || is "$1" bad_line_told "$1"
    [ ! -f "$1/report.txt" ] || is "$1" same "$work/out" "$1/report.txt"
    [ ! -f "$1/lines.txt" ] || is "$1" has_lines "$work/out" "$1/lines.txt"
    [ ! -f "$1/report.txt" ] || judge "$1 as stored" "$1" "$1/report.txt"
    [ -f "$1/error.txt" ] || judge "$1" "$1" "$work/out"
    if [ -f "$1/report.json" ]; then
        run "$work/out" run "$1/world.txt" "$1/script.txt" 1 json
        is "$1 as JSON" same "$work/out" "$1/report.json"
    fi
}

# compare_workers FOLDER WORKERS: the same with several workers, as far as the order of the ticks does not matter
compare_workers() {
    local name="$1 with $2 workers"
    run "$work/out" run "$1/world.txt" "$1/script.txt" "$2"
    [ ! -f "$1/error.txt" ] || is "$name" bad_line_told "$1"
    [ ! -f "$1/report.txt" ] || order_decides "$1" || is "$name" same_state "$work/out" "$1/report.txt"
    [ ! -f "$1/lines.txt" ] || is "$name" has_lines "$work/out" "$1/lines.txt"
    [ -f "$1/error.txt" ] || judge "$name" "$1" "$work/out"
}

# The program is built here, where it has to be. With no words it only says that they are no command, and ends with 2.
run "$work/out"
if [ "$code" != 2 ]; then
    cat "$work/err" >&2
    exit 1
fi

# a word that is no text: the words are no command, and nothing is read
run "$work/out" run $'\xff' b 1
is "a word that is not UTF-8" no_command

# `bad` and `rules` hold folders, `checks` holds reports, and `made` summaries
for example in $(find examples -mindepth 1 -type d ! -path examples/bad ! -path examples/rules ! -path 'examples/checks*' ! -path examples/made | sort); do
    if ! [ -f "$example/world.txt" ] || ! [ -f "$example/script.txt" ]; then
        fails "$example" "world.txt or script.txt is missing"
    elif ! has_one "$example" report.txt report.json lines.txt error.txt; then
        fails "$example" "nothing is stored to compare with"
    else
        compare "$example"
        compare_workers "$example" 4
        compare_workers "$example" 8
    fi
done

for bad in examples/checks/*; do
    run "$work/said" check examples/first/world.txt examples/first/script.txt "$bad/report.txt"
    is "$bad" bad_report_told "$bad"
done

for picture in examples/*/picture.svg; do
    folder=$(dirname "$picture")
    draw "$work/out" "$folder/world.txt" "$folder/report.txt"
    is "$picture" same "$work/out" "$picture"
done

# what is no report is not drawn
draw "$work/out" examples/first/world.txt examples/checks/another_version/report.txt
is "a report of another version" not_drawn 1
draw "$work/out" examples/first/world.txt examples/checks/a_carriage_return/report.txt
is "a report with a carriage return" not_drawn "$(grep -n $'\r' examples/checks/a_carriage_return/report.txt | head -1 | cut -d: -f1)"

for summary in examples/made/*.txt; do
    run "$work/out" make "$(basename "$summary" .txt)"
    is "$summary" same "$work/out" "$summary"
done

# five hundred clusters, twice: the same summary, with eight ticks for each
run "$work/first" make 500
is "make 500" grep -qx "ticks 4000" "$work/first"
run "$work/second" make 500
is "make 500 again" same "$work/first" "$work/second"

echo "examples: $checked comparisons, $failed failures"
[ "$failed" = 0 ]
