#!/usr/bin/env bash
# What a term of a bank costs: the time for a million, two and four million applications, each over the one before.
# Usage: bench/terms.sh
exec "$(dirname "${BASH_SOURCE[0]}")/timed.sh" terms_bench term
