#!/usr/bin/env bash
# How long the first-order calls take on families on which they could take too long: unification of chains that
# double, of a cycle and of a row of variables, the order of towers, and a text that is read and one that is
# refused. Usage: bench/first_order.sh
set -euo pipefail
top=$(cd "$(dirname "${BASH_SOURCE[0]}")/.." && pwd)
"$top/bin/program" fo_bench >/dev/null
for family in clash turned_clash cycle row constants variables clauses symbols; do
    for count in 100000 200000 400000; do
        start=$(date +%s%N)
        answer=$("$top/bin/program" fo_bench "$family" "$count")
        end=$(date +%s%N)
        echo "$count: $answer, $(((end - start) / 1000000)) ms"
    done
done
