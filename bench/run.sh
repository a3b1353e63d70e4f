#!/usr/bin/env bash
# Times one of the programs in the folders beside this script, and the same in plain Rust (see README.md):
# ./run.sh lists the names, and ./run.sh NAME prints a table.
set -eu
here=$(cd "$(dirname "$0")" && pwd)
rt=${RT:-rt}
work=$(mktemp -d)
trap 'rm -rf "$work"' EXIT

# Proves and builds the program of a folder, with copies of the crates that it stands on.
build_program() {
    mkdir "$work/crates"
    cp "$here/../HANDLES" "$work/"
    : > "$work/crates.txt"
    (cd "$work" && "$rt" new "crates/$1_time" start_io > /dev/null)
    program="$work/crates/$1_time"
    rm -rf "$program/src" "$program/stdin" "$program/stdout"
    mkdir "$program/src"
    for file in "$here/$1"/*.rt.txt; do
        cp "$file" "$program/src/$(basename "$file" .txt)"
    done
    for file in "$here/$1"/*.antt.txt; do
        place=$(basename "$file" .antt.txt)
        [[ $place == specs.* ]] || place=proofs.$place
        place=$program/${place//./\/}.antt
        mkdir -p "$(dirname "$place")"
        cp "$file" "$place"
    done
    while read -r crate below; do
        if [ "$crate" != "$1_time:" ]; then
            mkdir "$work/crates/${crate%:}"
            for part in src specs proofs; do
                cp -r "$here/../crates/${crate%:}/$part" "$work/crates/${crate%:}/"
            done
        fi
        echo "$crate $below" >> "$work/crates.txt"
    done < "$here/$1/stands_on.txt"
    (cd "$work" && "$rt" all check) > "$work/log" 2>&1 || { tail -n 20 "$work/log"; exit 1; }
    (cd "$program" && "$rt" run) > "$work/log" 2>&1 || { tail -n 20 "$work/log"; exit 1; }
    ours="$program/out/$1_time"
}

# Builds the same in plain Rust, for the level of processors that the kit builds for.
build_plain() {
    plain="$work/plain"
    rustc -O -C target-cpu=x86-64-v2 --edition 2024 -o "$plain" "$here/$1/plain.rs"
}

# Searches an instance; the status is 1 where the moves were spent before the end.
search_once() {
    "$1" search --moves 100000 < "$2" > "$work/text" || [ $? -eq 1 ]
}

# Searches each instance by a program ten times: a line has the user's time of one search in microseconds, which is
# told in thousandths of a second, and a checksum of what was printed.
search_each() {
    TIMEFORMAT=%U
    ls -v "$work/instances" | while read -r shape; do
        { time for _ in {1..10}; do search_once "$1" "$work/instances/$shape"; done; } 2> "$work/time"
        echo "$shape: $(awk '{ print 100000 * $1 }' "$work/time") : $(cksum < "$work/text")"
    done
}

# Runs two commands in turn so many times, and prints for each line the least times, and their ratios. A line is
# "LABEL: TIME .. : OUTPUT", and the output has to be the same each time.
compare() {
    for ((i = 0; i < ${RUNS:-$1}; i++)); do
        $2 >> "$work/ours"
        $3 >> "$work/theirs"
    done
    awk -F ' *: *' '
        {
            side = FILENAME ~ /ours$/ ? 1 : 2
            if (!($1 in output)) { label[++labels] = $1; output[$1] = $3 }
            if (output[$1] != $3) { print "the outputs differ at " $1; differs = 1; exit }
            times = split($2, time, " ")
            for (t = 1; t <= times; t++)
                if (!((side, $1, t) in least) || time[t] < least[side, $1, t]) least[side, $1, t] = time[t]
        }
        END {
            if (differs) exit 1
            for (l = 1; l <= labels; l++) {
                line = sprintf("%-46s", label[l])
                for (t = 1; t <= times; t++) {
                    a = least[1, label[l], t]
                    b = least[2, label[l], t]
                    line = line sprintf(" %9d %9d %6.2f", a, b, a / b)
                    logs[t] += log(a / b)
                }
                print line
            }
            line = sprintf("%-46s", "geometric mean")
            for (t = 1; t <= times; t++) line = line sprintf(" %26.2f", exp(logs[t] / labels))
            print line
        }' "$work/ours" "$work/theirs"
}

# Searches each instance by a program with so many workers, and notes the wall clock time in seconds and how many points the front
# has. All moves have to be spent, and what is printed with one worker is what the first program printed.
note_searches() {
    TIMEFORMAT=%3R
    for shape in "$work"/instances/*; do
        { time "$2" search --moves "$moves" --workers "$3" --rows "$rows" < "$shape" > "$work/text" || [ $? -eq 1 ]; } 2> "$work/time"
        shape=${shape##*/}
        [ -e "$work/first $shape" ] || cp "$work/text" "$work/first $shape"
        grep -q "^end stopped .* evaluated $moves " "$work/text" || { echo "$1, $3: moves are left at $shape"; exit 1; }
        [ "$3" -gt 1 ] || cmp "$work/text" "$work/first $shape" || { echo "$1 has another text at $shape"; exit 1; }
        echo "$1, $3:$shape:$(cat "$work/time"):$(awk 'NR == 1 { print $2 }' "$work/text")" >> "$work/notes"
    done
}

# Prints for each program and instance the least time in milliseconds, its ratio to that of the first program, and how many points
# the last front had.
tell_notes() {
    awk -F : '
        !($1 in times) { label[++labels] = $1; times[$1] = 0 }
        !($2 in seen) { shape[++shapes] = $2; seen[$2] }
        { if (!(($1, $2) in least) || 1000 * $3 < least[$1, $2]) least[$1, $2] = 1000 * $3; points[$1, $2] = $4 }
        END {
            line = sprintf("%-24s", "")
            for (s = 1; s <= shapes; s++) line = line sprintf(" %24s", shape[s])
            print line
            for (l = 1; l <= labels; l++) {
                line = sprintf("%-24s", label[l])
                for (s = 1; s <= shapes; s++) {
                    ms = least[label[l], shape[s]]
                    line = line sprintf(" %9d %7.2f %6d", ms, ms / least[label[1], shape[s]], points[label[l], shape[s]])
                }
                print line
            }
        }' "$work/notes"
}

case ${1:-} in
    '')
        for folder in "$here"/*/; do basename "$folder"; done
        ;;
    archive | perms | pools | rows | walk)
        build_program "$1"
        build_plain "$1"
        compare 40 "$ours" "$plain"
        ;;
    questions)
        build_program questions
        compare 20 "$ours rows" "$ours alone"
        ;;
    search)
        build_plain search
        mkdir "$work/instances"
        for items in 20 60 100 256; do
            for objectives in 2 3 4; do
                for rules in 1 8; do
                    "$plain" make $items $objectives $rules > "$work/instances/$items $objectives $rules"
                done
            done
        done
        "$here/../plsnd" search < "$here/../examples/two_items.txt" > "$work/text"
        compare 5 "search_each $here/../crates/plsnd/out/plsnd" "search_each $plain"
        ;;
    workers)
        build_program workers
        build_plain workers
        "$here/../plsnd" search < "$here/../examples/two_items.txt" > "$work/text"
        plsnd=$here/../crates/plsnd/out/plsnd
        moves=${MOVES:-1000000} rows=${ROWS:-65536}
        mkdir "$work/instances"
        "$plsnd" make --seed 1 --size 100 --objectives 3 > "$work/instances/100 items, 3 profits"
        "$plsnd" make --seed 1 --size 256 --objectives 2 > "$work/instances/256 items, 2 profits"
        "$plsnd" make --seed 1 --kind tour --size 60 --objectives 3 > "$work/instances/60 cities, 3 lengths"
        for ((i = 0; i < ${RUNS:-5}; i++)); do
            note_searches "plain Rust" "$plain" 1
            note_searches "plain Rust, a lock" "$plain" 4
            for workers in 1 2 4; do note_searches "by turns" "$ours" $workers; done
            for workers in 1 2 4; do note_searches plsnd "$plsnd" $workers; done
        done
        tell_notes
        ;;
    *)
        echo "no folder $1" >&2
        exit 2
        ;;
esac
