#!/usr/bin/env bash
# Measures gomod beside a plain program in Rust, the go command, sort and cat, and prints the tables of
# docs/dev/BENCHMARKS.md.
#
#   bench/tables.sh          all tables
#   bench/tables.sh --write  and writes them into BENCHMARKS.md, README.md and COMMANDS.md, after .ci/run
#   bench/tables.sh --small  small files, to see in a minute whether it runs
#
#   --only TABLE,..      some of graphs, versions, fmt, edit, sums, strangers, growth (with --write growth alone)
#   --go COMMAND         this go, as /usr/lib/go-1.19/bin/go
#   --program FILE       another program than bin/gomod
#   --rounds N           N rounds instead of seven
#
# The programs of a table run in turn, in seven rounds, or three if they take more than a second. A time is the least of
# the rounds, seconds elapsed or, where docs/dev/BENCHMARKS.md says so, CPU seconds (of the program and of the system
# for it); memory is the greatest peak. Before the rounds each program runs once, so that all files are in the file
# cache, and `gomod list`, with and without --sum, the plain program and `go list -m all` must print the same bytes.
# What go takes with a cold cache is one run. Instructions are those that callgrind counts.
#
# The plain program is bench/plain.rs; "files alone" opens, reads and closes the same files in the same order. The rows
# of the edits are those of bench/edit.sh, which runs once in each round.
#
# It needs bin/gomod (./build makes it), python3 and a C compiler, 2 GB of disk for 450,000 small temporary files, and
# 2 GB of memory; rustc, go and valgrind if there are any. --write needs these too, but for growth alone, and
# bin/gate.txt with the sha256 of bin/gomod, so that what is measured is proved. The status is 1 if a program fails or
# prints something else, or it refuses, and 2 for wrong arguments.
set -euo pipefail
cd "$(dirname "$0")/.."
# shellcheck source=tools/lib.sh
. tools/lib.sh
begin_script "$@"
exec python3 -B bench/tables.py "$@"
