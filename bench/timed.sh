#!/usr/bin/env bash
# bench/timed.sh PROGRAM THING [COUNT..]: the time that PROGRAM takes for so many of the THINGs that its word counts,
# else for a million, two and four million. It is built first, so that the build is not timed.
set -euo pipefail
program=$1
thing=$2
shift 2
[ $# -gt 0 ] || set -- 1000000 2000000 4000000
top=$(cd "$(dirname "${BASH_SOURCE[0]}")/.." && pwd)
"$top/bin/program" "$program" 1 >/dev/null
for count in "$@"; do
    start=$(date +%s%N)
    "$top/bin/program" "$program" "$count" >/dev/null
    end=$(date +%s%N)
    echo "$count ${thing}s: $(((end - start) / 1000000)) ms, $(((end - start) / count)) ns a $thing"
done
