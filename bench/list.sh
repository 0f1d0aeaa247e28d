#!/bin/sh
# Times `list` beside the Rust: all 2,720,952 scenarios of 7 participants and 2 rounds, five runs each, output thrown away.
#
#     bench/list.sh ORACLE [LIST]
#
# ORACLE is the program that runs the Rust module and answers `list n rounds mode count`. LIST is our program, by default
# crates/list/out/list, where `rt run` in crates/list puts it. Both medians, in milliseconds, and their ratio are printed. The times are
# taken by `date +%s%N`, which GNU and busybox have.
set -eu
root=$(cd "$(dirname "$0")/.." && pwd -P)
[ $# -ge 1 ] && [ $# -le 2 ] || { echo "usage: $0 ORACLE [LIST]" >&2; exit 2; }
oracle=$1
list=${2:-$root/crates/list/out/list}
for program in "$oracle" "$list"; do
    [ -x "$program" ] || { echo "$program is not a program" >&2; exit 2; }
done

ours() { printf '7 2 2 s 4294967295\n' | "$list"; }
theirs() { "$oracle" list 7 2 s 4294967295; }

# the same lines, but for our header, or the times say nothing
[ "$(ours | tail -n +2 | cksum)" = "$(theirs | cksum)" ] || { echo "the listings differ" >&2; exit 1; }

# The median of five runs, in microseconds.
median() { # FUNCTION
    for _ in 1 2 3 4 5; do
        begun=$(date +%s%N)
        "$1" >/dev/null
        ended=$(date +%s%N)
        echo $(((ended - begun) / 1000))
    done | sort -n | sed -n 3p
}

a=$(median ours)
b=$(median theirs)
awk -v a="$a" -v b="$b" 'BEGIN { printf "list %.1f ms, oracle %.1f ms, ratio %.2f\n", a / 1000, b / 1000, a / b }'
