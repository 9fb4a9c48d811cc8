#!/usr/bin/env bash
# Times `gomod edit` with one operation and with many, on go.mod files of 65,535 requires, excludes of one path,
# replaces of one path and retractions, and on one of a single line, and `go mod edit` beside it if there is a go
# command. The requires are bare words with numbered and with random names, paths in quotes, blocks of one entry, and
# paths that all have one hash in gomod.
#
#   bench/edit.sh          what docs/dev/BENCHMARKS.md has
#   bench/edit.sh --small  2,000 lines and fewer operations, to see in seconds whether it runs
#
# It needs bin/gomod (./build makes it), python3, a C compiler, and 20 MB for temporary files. It prints for each
# command, of three runs (one with --small), the fastest: elapsed seconds, CPU seconds, and peak memory. The status is 1
# if gomod fails or there is none.
set -euo pipefail
cd "$(dirname "$0")/.."
# shellcheck source=tools/lib.sh
. tools/lib.sh
begin_script "$@"
# bench/tables.py names another program and another number of runs
small='' runs=${BENCH_RUNS:-3} gomod=${BENCH_PROGRAM:-$PWD/bin/gomod}
case $#:${1-} in
  0:) ;;
  1:--small) small=yes runs=1 ;;
  *) misused "it takes --small or nothing" ;;
esac
[ -n "${BENCH_PROGRAM:-}" ] || need_gomod
work=$(mktemp -d)
trap 'rm -rf "$work"' EXIT
"${CC:-cc}" -O2 -o "$work/measure" bench/measure.c

# What bench/measure.c prints of the fastest run of a command; the first argument is the file for standard input, or -.
best() {
  local run
  for ((run = 0; run < runs; run++)); do "$work/measure" "$1" - "${@:2}"; done | sort -n | head -n 1
}

# The same bytes at each run.
count=65535 many=1000 added=4000 more=16000
goal=" (goal: 0.5 s)" goal_strings=" (goal: 1 s)" goal_hash=" (goal: 2 s)" goal_added=" (goal: 0.6 s)"
if [ -n "$small" ]; then
  count=2000 many=30 added=200 more=800 goal='' goal_strings='' goal_hash='' goal_added=''
fi
python3 - "$work" $count $many $added $more << 'PY'
import hashlib
import sys

work = sys.argv[1]
count, many, added, more = map(int, sys.argv[2:])


def write(name, lines):
    with open(f"{work}/{name}", "w", encoding="ascii") as out:
        out.write("\n".join(lines) + "\n")


def block(name, verb, entries):
    write(name, ["module example.com/big", "", "go 1.16", "", f"{verb} (", *entries, ")"])


def numbered(number):
    return f"example.com/module{number:06d}"


def at_random(number):
    return f"example.com/{hashlib.sha256(str(number).encode()).hexdigest()[:12]}"


def requirement(number, path=numbered):
    comment = " // indirect" if number % 4 == 0 else ""
    return f"\t{path(number)} v1.{number % 40}.{number % 7}{comment}"


def one_hash(wanted):
    """Paths of three times eight bytes to which gm_name::fingerprint gives the same number: whatever the second word is,
    the third one undoes it. The second is chosen byte by byte, so that the third one also has only letters, digits, `-`
    and `_`."""
    factor, whole = 11400714819323198485, 2**64 - 1
    letters = b"0123456789abcdefghijklmnopqrstuvwxyzABCDEFGHIJKLMNOPQRSTUVWXYZ-_"
    undone = int.from_bytes(b"gomod-0a", "little") ^ 0x1122334455667788

    def mixed(number, word):
        product = (number ^ word) * factor & whole
        return product ^ product >> 32

    first = b"e.co/Aaa"
    start = mixed(0, int.from_bytes(first, "little"))

    def third_fits(product, place):
        high = product >> 8 * place & 255
        low = product >> 8 * (place - 4) & 255
        return (high ^ undone >> 8 * place & 255) in letters and (low ^ high ^ undone >> 8 * (place - 4) & 255) in letters

    def words(word, place):
        for letter in letters:
            longer = word | letter << 8 * place
            if place < 4 or third_fits((start ^ longer) * factor, place):
                if place == 7:
                    yield longer
                else:
                    yield from words(longer, place + 1)

    found = []
    for second in words(0, 0):
        third = mixed(start, second) ^ undone
        found.append((first + second.to_bytes(8, "little") + third.to_bytes(8, "little")).decode("ascii"))
        if len(found) == wanted:
            return found


def version(number):
    return f"v1.{number // 256}.{number % 256}"


block("big.mod", "require", [requirement(number) for number in range(count)])
block("random.mod", "require", [requirement(number, at_random) for number in range(count)])
block("excludes.mod", "exclude", [f"\texample.com/one {version(number)}" for number in range(count)])
block("replaces.mod", "replace", [f"\texample.com/one {version(number)} => ../one" for number in range(count)])
block("retractions.mod", "retract", [f"\t{version(number)}" for number in range(count)])
block("quoted.mod", "require", [
    requirement(number).replace("\t", '\t"', 1).replace(" v", '" v', 1) for number in range(count)
])
hashed = one_hash(count)
block("hashed.mod", "require", [f"\t{path} v1.0.0" for path in hashed])
blocks = count // 3
write("blocks.mod", ["module example.com/big", ""] + [
    line for number in range(blocks) for line in ("require (", requirement(number), ")")
])
write("small.mod", ["module example.com/small"])


# changes, drops and additions in turn, spread over the file
changed = range(0, count, count // many)


def mixed(paths):
    return [
        f"require={path}@v1.50.{turn}" if turn % 3 == 0
        else f"droprequire={path}" if turn % 3 == 1
        else f"require=example.com/new{turn:06d}@v1.0.0"
        for turn, path in enumerate(paths)
    ][:many]


# drops and additions of one path, or changes of it, or of no path
write("excluded", [
    f"dropexclude=example.com/one@{version(number)}" if turn % 2 == 0 else f"exclude=example.com/one@v1.999.{turn}"
    for turn, number in enumerate(changed)
][:many])
write("replaced", [f"replace=example.com/one@{version(number)}=../other" for number in changed][:many])
write("retracted", [
    f"dropretract={version(number)}" if turn % 2 == 0 else f"retract=v1.999.{turn}"
    for turn, number in enumerate(changed)
][:many])
write("one", [f"require=example.com/module{count // 2:06d}@v1.50.0"])
write("none", ["droprequire=example.com/absent"])
for name, path in [("set", numbered), ("random", at_random)]:
    write(name, [f"require={path(number)}@v1.50.{turn}" for turn, number in enumerate(changed)][:many])
write("many", mixed([f"example.com/module{number:06d}" for number in changed]))
write("blocked", mixed([f"example.com/module{number:06d}" for number in range(0, blocks, blocks // many)]))
write("hashed", mixed([hashed[number] for number in changed]))
write("added", [f"require=example.com/added{number:05d}@v1.0.0" for number in range(added)])
write("more", [f"require=example.com/added{number:05d}@v1.0.0" for number in range(more)])
PY

show() {
  printf '%-56s %6.3f s, CPU %6.3f s, %4d MB\n' "$1" "$2" "$3" "$(($4 / 1000000))"
}

row() {
  local title=$1 file=$2 list=$3
  local operations
  mapfile -t operations < "$work/$list"
  read -r mine busy memory status < <(best - "$gomod" edit "$work/$file" "${operations[@]}")
  [ "$status" = 0 ] || { echo "gomod edit ended with status $status" >&2; exit 1; }
  show "$title" "$mine" "$busy" "$memory"
  if command -v go > /dev/null; then
    read -r theirs busy memory _ < <(best - go mod edit -print "${operations[@]/#/-}" "$work/$file")
    show "  go mod edit" "$theirs" "$busy" "$memory"
  fi
}

read -r mine busy memory status < <(best - "$gomod" fmt "$work/big.mod")
[ "$status" = 0 ] || { echo "gomod fmt ended with status $status" >&2; exit 1; }
show "gomod fmt, $count requires" "$mine" "$busy" "$memory"
row "one operation, $count requires" big.mod one
row "one that changes nothing" big.mod none
row "$many requires$goal" big.mod set
row "$many requires, random names$goal" random.mod random
row "$many operations$goal" big.mod many
row "$many operations, paths in quotes$goal_strings" quoted.mod many
row "$many operations, blocks of one entry$goal_strings" blocks.mod blocked
row "$many operations, paths of one hash$goal_hash" hashed.mod hashed
row "$many operations, $count excludes of a path" excludes.mod excluded
row "$many operations, $count replaces of a path" replaces.mod replaced
row "$many operations, $count retractions" retractions.mod retracted
row "$added additions, one line" small.mod added
row "$more additions, one line$goal_added" small.mod more
