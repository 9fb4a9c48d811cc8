#!/usr/bin/env bash
# Runs run_cases on the cases with sizes and on those that are wrong on purpose, and compares what it writes.
#
#   tools/try/cases.sh                    as both compilers built it for the merge gate, in crates/run_cases/out
#   tools/try/cases.sh PROGRAM..          these executables
#   tools/try/cases.sh --quick PROGRAM..  these, which unproved.sh --both made, on the cases of the gate
#                                         and the wrong ones; where a case has the version of a proved program, it wants
#                                         the marked one, and so many runs fewer as that has bytes fewer: run_cases cuts
#                                         each output after each byte
#   tools/try/cases.sh --checked          before a release: all cases, with a program that has Rattle's checks and the
#                                         address sanitizer, which it compiles (unproved.sh --checked)
#
# In each of the folders sizes and wrong of crates/run_cases/data, and for the cases of the gate in crates/run_cases,
# `args` has the arguments, `stdout` and `stderr` what the program has to write, and `status` its exit status: nothing
# and 0 without such a file. As in the gate, a program runs in a copy of the folder, as nobody if root starts it. It has
# 1,000 seconds of CPU time, one with checks 4,000. All programs and folders run side by side.
#
# What differs is printed, then how many runs passed and failed. The status is 1 if one failed, or if a folder has a
# file of cases that its `args` doesn't name. --checked removes bin/checked.txt, and if nothing fails makes it anew for
# release.sh: the day, the commit, and a checksum of the sources.
set -euo pipefail
cd "$(dirname "$0")/../.."
# shellcheck source=tools/lib.sh
. tools/lib.sh
begin_script "$@"
names=(sizes wrong) limit=1000 checked='' quick=''
case $#:${1-} in
  1:--checked)
    names=(gate sizes wrong) limit=4000 checked=yes
    shift
    ;;
  1:--quick) misused "--quick takes programs" ;;
  *:--quick)
    names=(gate wrong) quick=yes
    shift
    ;;
esac
case ${1-} in
  -*) misused "there is no option $1" ;;
esac

readonly CRATE=crates/run_cases NOBODY=65534 RECORD=bin/checked.txt
work=$(mktemp -d)
trap 'rm -rf "$work"' EXIT
chmod 711 "$work"
if [ -n "$checked" ]; then
  rm -f "$RECORD"
  sources=$(checksum_of_program)
  commit=$(commit_here)
  tools/release/unproved.sh --checked "$work/checked" run_cases
  set -- "$work/checked"
fi
programs=("$@")
[ $# -gt 0 ] || programs=("$CRATE/out/run_cases" "$CRATE/out/run_cases.by-rattle")
for program in "${programs[@]}"; do
  { [ -f "$program" ] && [ -x "$program" ]; } ||
    refuse "there is no program $program: rt ci leaves one by each compiler"
done

as_user=()
if [ "$(id -u)" -eq 0 ]; then
  as_user=(setpriv "--reuid=$NOBODY" "--regid=$NOBODY" --clear-groups --no-new-privs)
fi

# The folder with the cases of a name, and that with what is wanted of them.
cases_of() { if [ "$1" = gate ]; then echo "$CRATE/data"; else echo "$CRATE/data/$1"; fi; }
run_of() { if [ "$1" = gate ]; then echo "$CRATE"; else echo "$CRATE/data/$1"; fi; }

# Prints the files of cases of a name that the arguments don't have.
unnamed() {
  local args file
  args=$(run_of "$1")/args
  for file in "$(cases_of "$1")"/*.txt; do
    grep -qxF -- "$(basename "$file")" "$args" || echo "cases: $args doesn't name $(basename "$file")"
  done
}

# Runs the program with this number on the cases of a folder, and leaves what it wrote, its status and its seconds.
run_on() {
  local name=$1 at=$work/$1.$2 status=0 begun=$SECONDS words
  mkdir "$at"
  cp -r "$(cases_of "$name")" "$at/data"
  [ -z "$quick" ] || find "$at/data" -name '*.txt' -exec sed -Ei "s/$PROVED_MARK/$UNPROVED_MARK/" {} +
  [ ${#as_user[@]} -eq 0 ] || chown -R "$NOBODY:$NOBODY" "$at/data"
  mapfile -t words < "$(run_of "$name")/args"
  (
    cd "$at/data"
    ulimit -t "$limit"
    exec env -i PATH=/usr/local/bin:/usr/bin:/bin HOME="$PWD" TMPDIR="$PWD" LANG=C.UTF-8 \
      "${as_user[@]}" "$work/$2.run_cases" "${words[@]}"
  ) < /dev/null > "$at/stdout" 2> "$at/stderr" || status=$?
  [ "$status" -lt 137 ] || echo "It was ended by a signal, or after $limit seconds of CPU time." >> "$at/stderr"
  echo "$status" > "$at/status"
  echo "$((SECONDS - begun))" > "$at/seconds"
}

# Prints what the gate's cases print if their version is the marked one.
print_marked() {
  local marks bytes said
  marks=$(grep -hoE "$PROVED_MARK" "$CRATE"/data/*.txt)
  bytes=$((${#marks} + 1 - $(wc -l <<< "$marks") * (${#UNPROVED_MARK} + 1)))
  said=$(cat "$CRATE/stdout")
  said=${said% runs}
  echo "${said% *} $((${said##* } - bytes)) runs"
}

# The file of a folder that says what is wanted, or a file that says the same if there is none.
wanted() {
  local file
  file=$(run_of "$1")/$2
  if [ "$1:$2:$quick" = gate:stdout:yes ]; then
    echo "$work/marked"
  elif [ -e "$file" ]; then
    echo "$file"
  elif [ "$2" = status ]; then
    echo "$work/success"
  else
    echo /dev/null
  fi
}

# Compares what a program left, prints the first lines that differ, and says whether none does.
is_right() {
  local name=$1 at=$work/$1.$2 part is_right=0
  for part in status stdout stderr; do
    if ! diff -u --label wanted --label got "$(wanted "$name" "$part")" "$at/$part" > "$at/difference"; then
      echo "cases: $name, ${programs[$2]}: its $part differs"
      head -n 40 "$at/difference"
      is_right=1
    fi
  done
  return "$is_right"
}

echo 0 > "$work/success"
[ -z "$quick" ] || print_marked > "$work/marked"
for number in "${!programs[@]}"; do
  install -m 755 "${programs[$number]}" "$work/$number.run_cases"
done
passed=0 failed=0
lacking=$(for name in gate sizes wrong; do unnamed "$name"; done)
for name in "${names[@]}"; do
  for number in "${!programs[@]}"; do
    run_on "$name" "$number" &
  done
done
wait
for name in "${names[@]}"; do
  for number in "${!programs[@]}"; do
    if is_right "$name" "$number"; then
      at=$work/$name.$number
      echo "cases: $name, ${programs[$number]}: $(cat "$at/stdout") ($(cat "$at/seconds") s)"
      passed=$((passed + 1))
    else
      failed=$((failed + 1))
    fi
  done
done
[ -z "$lacking" ] || echo "$lacking"
echo "$passed passed, $failed failed"
[ "$failed" -eq 0 ] && [ -z "$lacking" ] || exit 1
if [ -n "$checked" ]; then
  [ "$(checksum_of_program)" = "$sources" ] || refuse "the sources aren't those at the start"
  mkdir -p bin
  printf '%s\n' "none wrong, on $(date --utc +%F) at commit $commit" "$sources" > "$RECORD"
fi
