#!/usr/bin/env bash
# Refuses each allocation of each command of the cases and of each test in turn, and lists what goes wrong then.
#
#   tools/try/refuse-memory.sh                     all below: before a release
#   tools/try/refuse-memory.sh --check             the cases and calls that are listed below, and the
#                                                  tests but those of reports: what .ci/run runs
#   tools/try/refuse-memory.sh --cases             all cases but the large ones
#   tools/try/refuse-memory.sh --cases FILE.txt..  the cases of these files, but the large ones
#   tools/try/refuse-memory.sh --cases TITLE..     the cases whose titles have one of these texts
#   tools/try/refuse-memory.sh NAME..              the tests of these crates
#
# A command whose memory is refused has to say so, or to have the result of its case. A test, and run_cases, which makes
# the calls of libraries, has to end well, or to fail and say that memory ran out. What does otherwise, crashes or hangs
# is printed with the number of the refused allocation. The status is 1 if that happened.
#
# --check refuses each allocation of the cases alone and then together with all later ones, until a run meets no
# refusal. In each run before that one the output has to be empty, the report `gomod: no memory` and the status 3.
#
# Without arguments it removes bin/refused.txt, and if nothing goes wrong makes it anew for tools/release/release.sh:
# the number of runs, the day and the commit, and the sha256 of bin/gomod. The number and the commit are written into
# PROVED.md.
#
# It needs a C compiler (`cc`, or what CC names), bin/gomod for the cases, run_cases for the calls (`rt ci` leaves it in
# out/), and `rt` for a crate whose tests are not built.
set -euo pipefail
cd "$(dirname "$0")/../.."
# shellcheck source=tools/lib.sh
. tools/lib.sh
begin_script "$@"

readonly DATA=crates/run_cases/data RECORD=bin/refused.txt
readonly RUN_CASES=crates/run_cases/out/run_cases PROVED=docs/proof/PROVED.md
readonly MOST=200000 # more allocations than any test makes: a guard against a count that doesn't end

command -v "${CC:-cc}" > /dev/null || refuse "there is no command ${CC:-cc}: install a C compiler, or name one by CC"
work=$(mktemp -d)
trap 'rm -rf "$work"' EXIT
"${CC:-cc}" -O1 -shared -fPIC -o "$work/faults.so" tools/try/faults.c

runs=0 failures=0

# The commands of cases. Those whose files are made large are left out, unless their titles are given.
refuse_in_cases() {
  local count
  { REFUSE_MEMORY=$work/faults.so tools/try/program.py "$@" | tee "$work/said" &&
    count=$(grep -oP '\d+(?= runs with an allocation refused$)' "$work/said"); } || failures=$((failures + 1))
  runs=$((runs + ${count:-0}))
}

# These cases, each with the name of its file.
refuse_in_listed() {
  local file title files=() titles=()
  while IFS=: read -r file title; do
    grep -sqxF -- "===$title" "$DATA/$file" || refuse "there is no case '$file:$title'"
    files+=("$DATA/$file") titles+=("${title# }")
  done << 'CASES'
selection.txt: The greatest of the required versions is listed, not the newest one
selection.txt: A requirement on the main module's path is followed, and has no row
pruning.txt: A pruned module that one without pruning requires is followed, though it was first reached at the top
pages.txt: After the main module come all other rows
replacements.txt: Two modules may share a file, which is read once
replacements.txt: A file that declares the replaced path is wrong for the replacing module itself
faults.txt: Every file with a fault is reported, whatever is asked
faults.txt: A go.mod is looked up in the go.sum by its path, its version and the mark of a go.mod
faults.txt: A hash that differs is reported, even next to the right one
faults.txt: A malformed go.sum is refused after a malformed main file, and before any module's file is opened
versions.txt: Versions are listed in ascending order, each once
versions.txt: Of an empty list the path alone is printed
versions.txt: A list that is absent is missing, whichever versions are asked for
layout.txt: Words, blank lines and comments are laid out anew, and a layout is laid out as it is
layout.txt: A file whose text does not read has no layout
edits.txt: Operations are applied in turn, each to what the one before it leaves
chains.txt: A chain is printed from the main module to a listed one, one step a line
graphs.txt: The edges of the main module come first, then those of each other module
graphs.txt: Files with equal requirements each have their edges, and an excluded one is left out of each
CASES
  mapfile -t files < <(printf '%s\n' "${files[@]}" | sort -u)
  REFUSE_LATER=yes refuse_in_cases "${files[@]}" "${titles[@]}"
}

# Whether a test that ended with this status failed, and not by a crash or a time limit, and says that memory ran out:
# in words, or by the name of the fault that it got. An assertion ends a test by SIGABRT (134).
says_no_memory() {
  { [ "$1" -lt 124 ] || [ "$1" -eq 134 ]; } && grep -qE 'out of memory|NoMemory' "$work/out" "$work/err"
}

# Runs a test of a binary, the second argument, with allocation N refused, for N from 1 until none is met. Prints each
# failure, with the name of the crate.
refuse_each() {
  local crate=$1 binary=$2 test=$3 n status bad=0
  for ((n = 1; n <= MOST; n++)); do
    status=0
    (
      ulimit -t 60
      cd "$work" && FAULTS=memory:$n:0:12:-1 LD_PRELOAD=$work/faults.so "$binary" "$test" >out 2>err
    ) 2>/dev/null || status=$?
    runs=$((runs + 1))
    if [ "$status" -ne 0 ] && ! says_no_memory "$status"; then
      bad=$((bad + 1))
      echo "$crate: $test: allocation $n refused: status $status:" \
        "$(grep -vx 'changed 0' "$work/err" | head -1)"
    fi
    if grep -qx 'changed 0' "$work/err" || [ "$bad" -ge 20 ]; then
      failures=$((failures + bad))
      return
    fi
  done
  failures=$((failures + 1))
  echo "$crate: $test: still asks for memory after $MOST allocations"
}

# The tests of a crate, but those whose names have the second argument.
refuse_in_tests() {
  local crate=$1 binary=$PWD/crates/$1/out/${1}_tests before=$runs tests=0 test
  if [ ! -x "$binary" ]; then
    (cd "crates/$crate" && rt test)
  fi
  for test in $("$binary" --list | sed -n 's/: test$//p' | grep -v "${2-^$}"); do
    tests=$((tests + 1))
    refuse_each "$crate" "$binary" "$test"
  done
  echo "$crate: $tests tests, $((runs - before)) runs"
}

has_tests() { grep -qsr '#\[test\]' "crates/$1/src"; }

# The crates that have tests.
crates_with_tests() {
  local name
  sed -n 's/^ *\([a-z0-9_]*\).*:.*/\1/p' crates.txt | while read -r name; do
    ! has_tests "$name" || echo "$name"
  done
}

# Each call of the libraries that asks for memory (docs/dev/CASES.md, "Calls"), which run_cases makes.
refuse_in_calls() {
  local before=$runs
  [ -x "$RUN_CASES" ] || refuse "there is no $RUN_CASES: rt ci leaves it"
  cat > "$work/calls.txt" << 'CASE'
=== Calls that ask for memory
$ path example.com/a/v2
> Slash(2) fetchable
$ version v1.0.0-rc.1
> prerelease
$ fits example.com/a/v2 v2.0.0
> yes
$ pseudo v1.2.4-0.20191109021931-daa7c04131f5
> 3 20191109021931 daa7c04131f5
$ base v1.2.4-0.20191109021931-daa7c04131f5
> v1.2.3
$ escape github.com/Azure
> github.com/!azure
$ unescape github.com/!azure
> github.com/Azure
$ order example.com/a v1.2.0 example.com/a v1.10.0
> less
$ document go.mod
> Entry module example.com/m
> Blank
> Entry require example.com/a v1.0.0 // c
> Blank
> Entry replace example.com/b => ./b
> Blank
> Entry exclude example.com/c v1.1.0
> Blank
> Entry retract [ v1.0.0 , v1.1.0 ]
$ spell "a b"
> "a b"
$ strict go.mod
> module example.com/m
> go 1.16
> require example.com/a v1.0.0
> exclude example.com/c v1.1.0
> replace example.com/b => ./b
> retract [v1.0.0, v1.1.0]
$ lax go.mod
> module example.com/m
> go 1.16
> require example.com/a v1.0.0
> retract [v1.0.0, v1.1.0]
$ select go.mod
> example.com/a@v1.0.0
$ apply go.mod droprequire=example.com/a
> module example.com/m
>
> replace example.com/b => ./b
>
> exclude example.com/c v1.1.0
>
> retract [v1.0.0, v1.1.0]
$ replacement go.mod example.com/b v1.0.0
> ./b
$ excluded go.mod example.com/c v1.1.0
> yes
$ hash go.mod
> h1:SGE2XGzrRz21dlLqJxHGk/CgCLXiYzcmuvbXDidKHnI=
$ check go.sum example.com/a v1.0.0 h1:SGE2XGzrRz21dlLqJxHGk/CgCLXiYzcmuvbXDidKHnI=
> Good
$ listed example.com/a list
> v1.9.0
> v1.10.0
$ latest example.com/a list
> v1.10.0
$ relative_name mod example.com/A v1.0.0
> example.com/!a/@v/v1.0.0.mod
$ relative_name list example.com/A
> example.com/!a/@v/list
$ relative_name folder ../a
> ../a/go.mod
$ folder_of ../m/go.mod
> ../m
-- go.mod --
module example.com/m

require example.com/a v1.0.0 // c

replace example.com/b => ./b

exclude example.com/c v1.1.0

retract [v1.0.0, v1.1.0]
-- go.sum --
example.com/a v1.0.0/go.mod h1:SGE2XGzrRz21dlLqJxHGk/CgCLXiYzcmuvbXDidKHnI=
-- list --
v1.10.0
v1.9.0
CASE
  refuse_each run_cases "$PWD/$RUN_CASES" "$work/calls.txt"
  echo "run_cases: calls of libraries, $((runs - before)) runs"
}

# Those calls, and all tests but those whose names have the argument.
refuse_in_libraries() {
  local crate
  refuse_in_calls
  for crate in $(crates_with_tests); do refuse_in_tests "$crate" "$@"; done
}

# All of it, and the record, whose figures PROVED.md has.
refuse_everywhere() {
  local program commit shown
  need_gomod
  rm -f "$RECORD"
  program=$(sha256sum bin/gomod) commit=$(commit_here)
  refuse_in_listed
  refuse_in_cases "$DATA"/*.txt
  refuse_in_libraries
  [ "$failures" -eq 0 ] || return 0
  sha256sum --check --status <<< "$program" || refuse "bin/gomod isn't the program that it was at the start"
  echo "$runs runs, none wrong, on $(date --utc +%F) at commit $commit" | tee "$RECORD"
  echo "$program" >> "$RECORD"
  shown=$(sed ':a; s/\B[0-9]\{3\}\>/,&/; ta' <<< "$runs")
  sed -Ei "s/at [0-9a-f]{8} none of [0-9,]+ runs was wrong/at ${commit:0:8} none of $shown runs was wrong/" "$PROVED"
}

case $#:${1-} in
  0:) refuse_everywhere ;;
  *:--check)
    [ $# -eq 1 ] || misused "--check takes nothing"
    refuse_in_listed
    # the reports of commands, which the cases have, would be nine tenths of the runs
    refuse_in_libraries ::reports::
    ;;
  *:--cases)
    shift
    [ $# -gt 0 ] || set -- "$DATA"/*.txt
    refuse_in_cases "$@"
    ;;
  *:-*) misused "there is no option $1" ;;
  *)
    for crate in "$@"; do
      has_tests "$crate" || misused "there is no crate '$crate' with tests"
      refuse_in_tests "$crate"
    done
    ;;
esac
if [ "$failures" -ne 0 ]; then
  echo "$failures failures"
  exit 1
fi
