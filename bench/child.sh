#!/usr/bin/env bash
# How long the child prover works on the axioms of groups with the claim that any two elements commute, to which it
# finds no answer within so many turns. The run is fixed by the problem: it draws 15,748 conclusions in 200 turns and
# keeps 9,555 clauses, 34,614 and 20,171 in 300, 134,346 and 75,613 in 600. Usage: bench/child.sh
set -euo pipefail
top=$(cd "$(dirname "${BASH_SOURCE[0]}")/.." && pwd)
scratch=$(mktemp -d)
trap 'rm -rf "$scratch"' EXIT

# f2 is the unit, f3 gives the inverse, f4 the product, and f5 and f6 are two elements.
groups() {
    cat <<TEXT
leo3fo 1
turns $1
weight 60
sorts 2
syms 7
0
0
1
1 1
1 1 1
1
1
clauses 5
0 1 - f0 f1
1 1 1 + f4 f2 v0 v0
1 1 1 + f4 f3 v0 v0 f2
3 1 1 1 1 + f4 f4 v0 v1 v2 f4 v0 f4 v1 v2
0 1 - f4 f5 f6 f4 f6 f5
end
TEXT
}

# 2,000 clauses that say of as many elements that they are equal to the next.
chain() {
    printf 'leo3fo 1\nturns 1\nweight 60\nsorts 2\nsyms 2003\n0\n0\n'
    for ((number = 0; number <= 2000; number++)); do echo 1; done
    printf 'clauses 2001\n0 1 - f0 f1\n'
    for ((number = 0; number < 2000; number++)); do echo "0 1 + f$((number + 2)) f$((number + 3))"; done
    echo end
}

# The processor's time, since others may be at work on the machine.
timed() {
    local took answer
    TIMEFORMAT=%U
    took=$({ time "$top/bin/leo3_fo" <"$2" >"$scratch/answer" || true; } 2>&1)
    answer=$(tail -n 1 "$scratch/answer")
    echo "$1: $answer, $took s$(awk -v took="$took" -v conclusions="${3:-0}" 'BEGIN { if (conclusions) printf ", %d conclusions a second", conclusions / (took + 0.001) }')"
}

chain >"$scratch/chain"
"$top/bin/leo3_fo" <"$scratch/chain" >/dev/null || true
timed "2,000 clauses, one turn" "$scratch/chain"
for row in "200 15748" "300 34614" "600 134346"; do
    read -r turns conclusions <<<"$row"
    groups "$turns" >"$scratch/groups"
    timed "$turns turns" "$scratch/groups" "$conclusions"
done
