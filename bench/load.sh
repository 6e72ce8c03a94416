#!/usr/bin/env bash
# What a statement of a problem costs: the time for 50,000, 100,000 and 200,000 statements, half of which declare
# a predicate and half of which say something of one. Usage: bench/load.sh
exec "$(dirname "${BASH_SOURCE[0]}")/timed.sh" load_bench statement 50000 100000 200000
