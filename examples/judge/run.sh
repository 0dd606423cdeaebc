#!/bin/bash
# Has another range map judged: run.sh MTREPLAY [RUNS [SEED]], where MTREPLAY is the path of the built program.
# Builds sorted.c as it should be and with each of its three bugs, makes a log of 4 lanes with 5,000 steps each, runs
# each program RUNS times (10), gives each transcript to `MTREPLAY verify`, and prints a table of the verdicts. Needs a
# C compiler (CC) and awk. Ends with 0 if the right program was verified each time, and the first two bugs were
# refused each time. Nothing is asked of the third, which shows only if a read meets a call. See docs/JUDGE.md. It is
# not part of the gate.
set -u
if [ $# -lt 1 ] || [ ! -x "$1" ]; then
    echo "usage: run.sh MTREPLAY [RUNS [SEED]]" >&2
    exit 2
fi
mtreplay=$(readlink -f "$1")
runs=${2:-10}
seed=${3:-7}
here=$(dirname "$(readlink -f "${BASH_SOURCE[0]}")")
folder=$(mktemp -d) || exit 1
trap 'rm -rf "$folder"' EXIT

# Of 20 steps 8 store one to eight indexes, each an entry of its own, 2 erase, 5 load and 5 find. The numbers are those
# of the generator 16807 modulo 2^31 - 1, which awk computes exactly. After the join each lane reads the ends of all.
awk -v seed="$seed" '
    function below(n) { seed = seed * 16807 % 2147483647; return int(seed / 2147483647 * n) }
    BEGIN {
        print "mtlog 2"; print "tree a range"
        for (lane = 0; lane < 4; lane++) {
            print "lane " lane
            for (i = 0; i < 5000; i++) {
                kind = below(20); at = below(16384)
                if (kind < 8) print "store a", at, at + below(8), 4096 + ++entry
                else if (kind < 10) print "erase a", at
                else if (kind < 15) print "load a", at
                else print "find a", at, at + 63
            }
        }
        print "join"
        for (lane = 0; lane < 4; lane++) { print "lane " lane; print "find a 0 max"; print "load a", below(16384) }
    }' > "$folder/log" || exit 1

ok=0
printf '%-32s %9s %8s %6s   %s\n' program verified refused other 'reads that overlapped calls, least to most'
bugs=('as it should be' 'BUG=1, a lost update' 'BUG=2, a stale read' 'BUG=3, a reader without the lock')
for bug in 0 1 2 3; do
    program=$folder/sorted$bug
    "${CC:-cc}" -O2 -std=c11 -pthread -DBUG=$bug -o "$program" "$here/sorted.c" || exit 1
    verified=0 refused=0 other=0 least= most=0
    for ((i = 0; i < runs; i++)); do
        if ! "$program" < "$folder/log" > "$folder/transcript"; then
            other=$((other + 1))
            continue
        fi
        { cat "$folder/log"; echo ---; cat "$folder/transcript"; } > "$folder/both"
        "$mtreplay" verify < "$folder/both" > "$folder/verdict" 2>&1
        case $? in
            0) verified=$((verified + 1)) ;;
            7) refused=$((refused + 1)) ;;
            *) other=$((other + 1)); cat "$folder/verdict" >&2 ;;
        esac
        over=$(awk '$4 ~ /^(none|entry|range)$/ && $2 < $3 { n++ } END { print n + 0 }' "$folder/transcript")
        [ -z "$least" ] || [ "$over" -lt "$least" ] && least=$over
        [ "$over" -gt "$most" ] && most=$over
    done
    printf '%-32s %9d %8d %6d   %s\n' "${bugs[bug]}" $verified $refused $other "${least:-0} to $most"
    case $bug in
        0) [ $verified -eq "$runs" ] || ok=1 ;;
        1 | 2) [ $refused -eq "$runs" ] || ok=1 ;;
    esac
done
exit $ok
