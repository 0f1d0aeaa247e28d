#!/bin/sh
# Times sampling beside the Rust: 1,000, 2,000 and 4,000 ranks below 18,000,000,000,000,000,000, from seeds of SplitMix64.
#
#     bench/sample.sh ORACLE [REPLAY]
#
# ORACLE is the program that runs the Rust module and answers `sample total ranks seed S`. REPLAY is our program, by default
# crates/replay_rigs/out/replay_rigs, where `rt run` in crates/replay_rigs puts it; it reads the same questions with the oracle's answers, and compares.
# Each is run on 101 questions and on one, five times each. What the medians differ by, for each question, is printed in
# milliseconds, and the ratio. The times are taken by `date +%s%N`, which GNU and busybox have.
set -eu
root=$(cd "$(dirname "$0")/.." && pwd -P)
[ $# -ge 1 ] && [ $# -le 2 ] || { echo "usage: $0 ORACLE [REPLAY]" >&2; exit 2; }
oracle=$1
replay=${2:-$root/crates/replay_rigs/out/replay_rigs}
for program in "$oracle" "$replay"; do
    [ -x "$program" ] || { echo "$program is not a program" >&2; exit 2; }
done
dir=$(mktemp -d)
trap 'rm -rf "$dir"' EXIT
more=100

# The questions, with their answers beside them; and the first of them alone.
write_questions() { # RANKS
    seq 0 "$more" | sed "s/^/sample 18000000000000000000 $1 seed /" >"$dir/many"
    "$oracle" <"$dir/many" | grep -v '^\.$' | paste -d'|' "$dir/many" - | sed 's/|/ | /' >"$dir/many-answered"
    head -n 1 "$dir/many" >"$dir/one"
    head -n 1 "$dir/many-answered" >"$dir/one-answered"
}

# The median of five runs on a file, in microseconds.
median() { # PROGRAM FILE
    for _ in 1 2 3 4 5; do
        begun=$(date +%s%N)
        "$1" <"$dir/$2" >/dev/null
        ended=$(date +%s%N)
        echo $(((ended - begun) / 1000))
    done | sort -n | sed -n 3p
}

for ranks in 1000 2000 4000; do
    write_questions "$ranks"
    # the same ranks, or the times say nothing
    told="sample $((more + 1)) of $((more + 1)) agree"
    "$replay" <"$dir/many-answered" | grep -qx "$told" || { echo "the ranks differ" >&2; exit 1; }
    a=$(($(median "$replay" many-answered) - $(median "$replay" one-answered)))
    b=$(($(median "$oracle" many) - $(median "$oracle" one)))
    awk -v k="$ranks" -v n="$more" -v a="$a" -v b="$b" \
        'BEGIN { printf "%d ranks: replay %.3f ms, oracle %.3f ms, ratio %.1f\n", k, a / n / 1000, b / n / 1000, a / b }'
done
