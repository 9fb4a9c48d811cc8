#!/usr/bin/env bash
# Checks the scripts of the repository: by shellcheck and pyflakes3, if they are installed, --help and a wrong argument
# of each, and what guards the merge gate and a release, in a scratch repository, with a command `rt` that does as said.
#
#   tools/check/check-scripts.sh
#
# It prints each difference, and how many things were compared. The status is 1 if there is a difference. It needs git,
# python3 and a C compiler.

# shellcheck disable=SC2016,SC2053
set -euo pipefail
cd "$(dirname "$0")/../.."
# shellcheck source=tools/lib.sh
. tools/lib.sh
begin_script "$@"
[ $# -eq 0 ] || misused "unknown argument '$1'"

work=$(mktemp -d)
trap 'rm -rf "$work"' EXIT
readonly FROM=$PWD TOP=$work/top RT=$work/path/rt MACHINE=$work/machine DATA=crates/run_cases/data
readonly PROVED='echo "gomod 1.0 (Rattle, logic 0123456789abcdef)" # GLIBC_2.34'
export PATH=$work/path:$PATH GOMOD_MACHINE=$MACHINE
wrong=0 compared=0
mapfile -t scripts < <(git ls-files -s | awk '$1 == 100755 { print $4 }')
mapfile -t files < <(git ls-files . ':!crates')

# Compares what was got, the third argument, with a pattern.
same() {
  compared=$((compared + 1))
  [[ $3 != $2 ]] || return 0
  printf '%s\nwanted: %s\ngot: %s\n' "$@"
  wrong=$((wrong + 1))
}

# Runs a command for at most 300 seconds of CPU time, and compares its status, a colon, its output and its errors with a
# pattern.
ends() {
  local status=0
  (ulimit -t 300 && "${@:2}") > "$work/output" 2> "$work/errors" || status=$?
  same "${*:2}" "$1" "$status:$(cat "$work/output" "$work/errors")"
}

# Lays a program of these lines.
lay() { printf '#!/usr/bin/env bash\n%s\n' "$2" | install -D /dev/stdin "$1"; }

# Whether a record is as wanted: a pattern, or nothing if there must be none.
leaves() { same "bin/$1" "$2" "$(cat "bin/$1" 2> /dev/null || true)"; }

commit() {
  git add .
  git -c user.name=x -c user.email=x commit -qm x
}

# Makes the scratch folder anew, and goes to the repository there. Its only crate is gomod, with a program that says it
# is proved. Scripts of tools/ that are run only say what .ci/run calls them. A command rt leaves a file and fails. It
# has 4 processors, and 9 GB of memory and disk.
scratch() {
  local name
  cd "$FROM"
  rm -rf "${work:?}"/*
  mkdir -p "$TOP"/{crates/gomod/src,$DATA}
  cp --parents -t "$TOP" "${files[@]}"
  cd "$TOP"
  for name in tools/*/*; do [ ! -x "$name" ] || lay "$name" 'echo "$GATE_CHECK"'; done
  echo "gomod: std" > crates.txt
  touch crates/gomod/src/main.rt
  lay bin/gomod "$PROVED"
  lay crates/gomod/out/gomod "$PROVED"
  lay "$RT" "touch '$work/called'; exit 9"
  lay "$work/path/nproc" 'echo 4'
  lay "$work/path/df" 'printf "\n- - - 9216000\n"'
  git init -q
  commit
  machine 9000
}

# Lays these scripts as they are.
real() { (cd "$FROM" && cp --parents -t "$TOP" "$@") && commit; }

# Makes the files of a machine anew, with so many MB available, and in /a of its control groups these limits. The group
# of this process is below, and has none.
machine() (
  rm -rf "$MACHINE"
  mkdir -p "$MACHINE"/{proc/self,sys/fs/cgroup/a/b}
  cd "$MACHINE"
  printf 'MemTotal: 99999999 kB\nMemAvailable: %d kB\n' $(($1 * 1024)) > proc/meminfo
  echo 0::/a/b > proc/self/cgroup
  cd sys/fs/cgroup/a
  tee b/{memory,cpu}.max <<< max > /dev/null
  [ $# -eq 1 ] || echo $(($2 << 20)) > memory.max
  echo $((100 << 20)) > memory.current
  printf 'anon 1\ninactive_file %d\n' $((40 << 20)) > memory.stat
  echo "${3:-max 100000}" > cpu.max
)

# Whether a command says nothing of the files that git has with these names, if it is there.
says_nothing() {
  if command -v "${1%% *}" > /dev/null; then
    same "$1" "" "$(git ls-files -z "${@:2}" | xargs -0 $1 2>&1)"
  else
    echo "skipped, for want of ${1%% *}: the scripts ${*:2}"
  fi
}

# What each script says of --help and an argument that none takes. It writes nothing.
check_words() {
  local script
  real "${scripts[@]}"
  for script in "${scripts[@]}"; do
    ends "0:$(sed -n '/^#!/d;s/^"""//;s/"""$//;s/^# //;p;q' "$script")*" "./$script" --help
    [[ $script == example/* ]] || ends "2:*@(--nosuch|--help)*" "./$script" --nosuch
  done
  same "what --help writes" "" "$(git status --porcelain)"
  ends "1:sources: ?Errno 28? No space left*" bash -c "tools/check/sources.py gomod > /dev/full"
}

limits() { free_memory_mb && processors; }

check_limits() {
  machine 5000 9000
  ends $'0:5000\n4' limits
  machine 5000 1200 "100000 100000"
  ends $'0:1140\n1' limits
  echo 4:cpu,memory:/a/b > "$MACHINE/proc/self/cgroup"
  (cd "$MACHINE/sys/fs/cgroup" && mkdir memory && mv a memory && cd memory/a &&
    mv memory.{max,limit_in_bytes} && mv memory.{current,usage_in_bytes})
  ends $'0:1140\n4' limits
  rm "$MACHINE/proc/self/cgroup"
  ends $'0:5000\n4' limits
  ends "1:check-scripts: x needs 9001 MB of disk, and 9000 MB are free" need_room x 5000 9001
  ends "1:bash: x needs the command rt: *" bash -c 'command() { false; }; . tools/lib.sh; need_room x 5000 9000'
}

check_refusals() {
  real tools/release/unproved.sh
  rm bin/gomod
  echo before > bin/gate.txt
  CC=no-cc ends "1:run: the gate needs the command no-cc" .ci/run
  RT_JOBS=0 ends "1:run: RT_JOBS is '0', and not a number*" .ci/run
  machine 9000 1260
  ends "1:build: a build needs 4000 MB of memory, and 1200 MB are free here" ./build
  ends "1:run: the gate needs 4200 MB of memory*" .ci/run
  ends "1:run: --quick needs 2500 MB of memory*" .ci/run --quick
  ends "125:*unproved: an unproved program needs 2500 MB of memory*" ./build --try list
  leaves gate.txt before
}

check_gate() {
  unset RT_JOBS
  lay "$RT" 'echo "$RT_JOBS jobs"; echo "1 passed, 0 failed"'
  machine 7300
  ends "0:*
2 jobs
1 passed, 0 failed
tools/check/documents.py*
tools/try/refuse-memory.sh
tools/try/faults.py
tools/try/doubling.py
tools/release/release.sh
1 passed, 0 failed" .ci/run
  leaves gate.txt $'1 passed, 0 failed\n'"$(sha256sum bin/gomod)"
  lay tools/try/doubling.py "exit 1"
  ends "1:*1 passed, 0 failed" .ci/run
  leaves gate.txt ""
  machine 5900
  lay "$RT" 'echo "0 passed, 1 failed"; kill -9 $$'
  ends "1:*0 passed, 1 failed
*likely to take more than 150 minutes*killed most likely wanted memory*" .ci/run
  leaves gate.txt ""
  lay "$RT" 'echo "BAD EDIT x"; echo "1 passed, 0 failed"'
  RT_JOBS=2 ends "1:*1 passed, 0 failed" .ci/run
}

# Compares how .ci/run --quick ends if unproved.sh has this line, with these names.
quick() {
  lay tools/release/unproved.sh "$2"
  ends "$1; nothing was proved" .ci/run --quick "${@:3}"
}

check_quick() {
  local can='install -m 755 /dev/null "$2"' how
  cp -r bin "$work/before"
  machine 2500
  lay "$RT" ""
  lay tools/try/readme.py "echo 'skipped, for want of dot: 3 examples'"
  quick "0:*13 checks passed, 0 failed, skipped for want of dot: 3 examples" "$can"
  quick "1:*
wrong
run: tools/release/unproved.sh --both run_cases failed, *5 checks passed, 1 failed, 7 did not run" \
    'echo wrong && exit 1'
  quick "0:*2 checks passed, 0 failed" "$can" documents layout
  ends "2:run: --quick has no check 'x'; '*.ci/run --help' says what it takes" .ci/run --quick x
  lay "$RT" 'echo x >> src/main.rt'
  quick "1:*run: layout failed*" "$can" layout
  lay tools/release/unproved.sh "echo \$\$ > '$work/begun'; sleep 60"
  machine 9000
  for how in "" --quick; do
    rm -f "$work/begun"
    .ci/run $how > /dev/null 2>&1 &
    until [ -s "$work/begun" ] || ! kill -0 $! 2> /dev/null; do sleep 0.1; done
    kill $! && wait $! || true
    same "a signal ends what .ci/run $how has begun" "" "$(ps -o stat= -p "$(< "$work/begun")" | grep -v ^Z)"
  done
  same ".ci/run --quick leaves bin/ as it was" "" "$(diff -r "$work/before" bin)"
}

# Compares why a release is refused.
refuses() { ends "1:release: $1" tools/release/release.sh "$work/released" "${@:2}"; }

check_unproved() {
  local install=(./build --install "$work/installed")
  real tools/release/{unproved,release}.sh
  ends "1:unproved: $TOP/program is in the repository*" tools/release/unproved.sh "$TOP/program"
  touch -d "1 hour" crates/gomod/PROOFS.md
  ends "0:$work/installed/bin/gomod*/example" "${install[@]}"
  touch -d "1 hour ago" bin/gomod
  ends "0:*build: bin/gomod is older than*" "${install[@]}"
  lay bin/gomod "$PROVED of other sources"
  ends "1:build: bin/gomod isn't the program*" "${install[@]}"
  lay bin/gomod 'echo "gomod 1 (Rattle, nothing is proved)"'
  cp bin/gomod crates/gomod/out
  ends "1:build: bin/gomod isn't the program*" "${install[@]}"
  refuses "bin/gomod isn't the program*"
  ends "1:release: bin/gomod isn't proved: its version is 'gomod 1 (Rattle, nothing is proved)'" \
    tools/release/release.sh --check
  same "what was refused was not released" "" "$(find "$work" -name released)"
  same "what is installed" "$PROVED CHANGELOG.md README.md docs example" \
    "$(tail -n 1 "$work/installed/bin/gomod") $(cd "$work/installed/share/doc/gomod" && echo *)"
}

# Compares how refuse-memory.sh ends if each call of program.py does this, and its record.
refuse_memory() {
  lay tools/try/program.py "echo \"\$REFUSE_LATER:\$#:\$*\"; $1"
  ends "$2" tools/try/refuse-memory.sh "${@:4}"
  leaves refused.txt "$3"
}

check_refused_memory() {
  local passes='echo "2 passed, 0 failed, 30 runs with an allocation refused"' head
  real tools/try/refuse-memory.sh
  refuse_memory "" "1:refuse-memory: there is no case 'selection.txt: The*" "" --check
  cp "$FROM/$DATA"/*.txt $DATA
  mkdir -p crates/run_cases/out
  "${CC:-cc}" -x c -o crates/run_cases/out/run_cases - <<< 'int main(void) {}'
  echo "at 01234567 none of 1,234 runs was wrong" > docs/proof/PROVED.md
  refuse_memory "$passes" "0:yes:*:$DATA/chains.txt *calls of libraries, 1 runs" "" --check
  commit
  head=$(git rev-parse HEAD)
  refuse_memory "$passes" "0:*" "61 runs, none wrong, on $(date -u +%F) at commit $head"$'\n'"$(sha256sum bin/gomod)"
  same "PROVED.md" "at ${head:0:8} none of 61 runs was wrong" "$(cat docs/proof/PROVED.md)"
  refuse_memory "$passes; exit 1" "1:*2 failures*" ""
  refuse_memory "" "1:*2 failures*" ""
  refuse_memory "$passes; echo '# x' >> bin/gomod" "1:*refuse-memory: bin/gomod isn't the program*" ""
  CC=no-cc refuse_memory "" "1:refuse-memory: there is no command no-cc*" ""
}

# Compares how program.py ends if in both worlds so many cases pass, fail and are seen by strace, and its record.
program() {
  sed "s/^if __name__/run_in, chosen_cases, prints_large_graph = lambda *_: ($1), lambda *_: [1], bool\n&/" \
    "$FROM/tools/try/program.py" > tools/try/program.py
  ends "$2" tools/try/program.py "${@:4}"
  leaves opened.txt "$3"
}

check_opened() {
  program 1,0,5 "0:*" "" a.txt
  program 1,0,5 "0:2 passed, 0 failed; in the other world 1 passed, 0 failed, 5 commands open nothing else" \
    "5 commands, none opens more than it names, on $(date -u +%F) at commit $(git rev-parse HEAD) with changes
$(sha256sum bin/gomod)"
  program 1,0,0 "0:skipped, *2 passed, *; what they open was not looked at" ""
  echo before > bin/opened.txt
  program 1,1,5 "1:*1 failed*" ""
}

check_release() {
  local records='' name line right number=0
  real tools/release/release.sh
  printf '%s\n' "glibc 2.34" "## Try it" "## When to use it" > README.md
  echo "## 1.0 (unreleased)" > CHANGELOG.md
  refuses "this is no gate that passed: '5 passed, 1 failed'" --gate "5 passed, 1 failed"
  refuses "there are changes that aren't committed" --gate "5 passed, 0 failed"
  commit
  for name in gate refused opened checked mistakes texts; do
    refuses "there is no bin/$name.txt: run *"
    line="$((number += 1)) passed, 0 failed" right=$(sha256sum bin/gomod)
    case $name in checked | mistakes) right=$(checksum_of_program) ;; esac
    printf '%s\n' "$line" "${right/[0-9]/x}" > "bin/$name.txt"
    refuses "bin/$name.txt is of another program or sources ($line): run *"
    printf '%s\n' "$line" "$right" > "bin/$name.txt"
    records+="*: $line"
  done
  refuses "CHANGELOG.md begins with '1.0 (unreleased)', and not with '1.0'*"
  git tag v1.0
  echo "## 1.0 (2026-01-02)" > CHANGELOG.md
  commit
  refuses "the tag v1.0 is at another commit, $(git rev-parse v1.0)"
  git tag -d v1.0 > /dev/null
  ends "0:*$records*" tools/release/release.sh "$work/released"
  same "RELEASE.txt" "*$records*" "$(tar -xzOf "$work"/released/*.tar.gz --wildcards '*/RELEASE.txt')"
}

check_build() {
  local how
  rm bin/gomod
  for how in 'kill -9 $$' 'exit 247' 'echo "clang failed with signal: 9 (SIGKILL)"; exit 1' \
    'echo "rt: the check was killed, most likely for memory: once more"; exit 1'; do
    lay "$RT" "$how"
    ends "1:*the proof of crates/gomod was killed, most likely for want of memory*" ./build
  done
  lay "$RT" 'echo "src/main.rt: error"; exit 1'
  ends $'1:*src/main.rt: error\nbuild: failed in crates/gomod' ./build
  lay "$RT" 'mkdir -p out; install -m 755 /dev/null out/gomod'
  ends "0:*$TOP/bin/gomod" ./build
}

# Compares how ./build --try ends in a folder with a blank in its name, and how often it has compiled.
try() {
  ends "$1" env -C "$work/a b" "$TOP/build" --try "${@:3}"
  same "build --try compiles" "$2" "$(wc -l < "$work/compiled")"
}

check_try() {
  mkdir "$work/a b"
  lay "$work/tried" 'IFS="|"; echo "$PWD|$*"; cat; echo a.mod:2: OpenBlock >&2; exit 3'
  lay tools/release/unproved.sh "echo \"\$1\" >> '$work/compiled'; cp '$work/tried' \"\$2\""
  try "3:$work/a b|fmt|go.mod||a  b
given
build: *nothing is proved*a.mod:2: OpenBlock" 1 fmt go.mod "" "a  b" < <(echo given)
  same "build --try: what is compiled" --checked "$(< "$work/compiled")"
  touch crates/gomod/PROOFS.md
  try "3:$TOP|list|--mod|example/go.mod|--proxy|example/cache/download*" 1 < /dev/null
  echo >> crates/gomod/src/main.rt
  try "3:$work/a b|list*" 2 list < /dev/null
  same "build --try keeps one program" 1 "$(find build.try -type f | wc -l)"
  echo >> crates/gomod/src/main.rt
  lay tools/release/unproved.sh 'echo wrong >&2; exit 1'
  try "125:*wrong" 2 list
}

says_nothing "shellcheck -x -S warning" '*.sh' build .ci/run
says_nothing pyflakes3 '*.py'
for check in $(compgen -A function check_); do
  scratch
  "$check"
  same "$check calls no rt but its own" "" "$(find "$work" -name called)"
done
echo "scripts: $compared things compared, $wrong wrong"
[ "$wrong" -eq 0 ]
