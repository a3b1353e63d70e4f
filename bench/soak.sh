#!/usr/bin/env bash
# Searches by 16 workers over few rows, for two minutes at most: bench/soak.sh [PROGRAM]
# Each front is checked as in tests/fronts. It prints how often each status came, and ends with 1 where something was wrong.
set -u
here=$(cd "$(dirname "$0")" && pwd)
program=${1:-$here/../plsnd}
work=$(mktemp -d)
trap 'rm -rf "$work"' EXIT

# What is wrong with a printed front: INSTANCE FRONT MOVES STATUS
fault() {
    python3 - "$here/../tests/fronts" "$@" << 'END'
import pathlib, runpy, sys
checker, instance, front, moves, status = sys.argv[1:]
fronts = runpy.run_path(checker)
instance = fronts["plain"].read(pathlib.Path(instance).read_text())
print(fronts["fault"](instance, pathlib.Path(front).read_text(), int(moves), int(status)) or "")
END
}

kinds=("knapsack --size 20" "assignment --size 9" "tour --size 11")
budgets=(1000000 3000 300)
came=([0]=0 [1]=0 [6]=0)
wrong=0
for ((seed = 0; SECONDS < 105; seed++)); do
    moves=${budgets[seed / 3 % 3]}
    # shellcheck disable=SC2206
    make=(make --kind ${kinds[seed % 3]} --objectives $((2 + seed / 9 % 3)) --seed "$seed")
    search=(search --workers 16 --rows $((64 << seed % 5)) --starts $((1 + seed % 7)) --seed "$seed" --moves "$moves")
    "$program" "${make[@]}" > "$work/instance"
    timeout 10 "$program" "${search[@]}" < "$work/instance" > "$work/front"
    status=$?
    came[status]=$((${came[status]:-0} + 1))
    found="no front"
    [[ ! $status =~ ^[016]$ ]] || found=$(fault "$work/instance" "$work/front" "$moves" "$status" 2>&1)
    if [ -n "$found" ]; then
        wrong=$((wrong + 1))
        echo "${make[*]}, ${search[*]}: status $status: $found"
    fi
done
for status in "${!came[@]}"; do
    echo "status $status: ${came[status]}"
done
echo "$wrong wrong"
[ "$wrong" = 0 ]
