#!/usr/bin/env bash
# What an add and a take of a passive clause cost: the time for a million, two and four million clauses with
# weights from 0 to 512. Usage: bench/passive.sh
exec "$(dirname "${BASH_SOURCE[0]}")/timed.sh" passive_bench clause
