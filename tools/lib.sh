# shellcheck shell=bash disable=SC2034
# Functions that the scripts share. A script goes to the root of the repository and sources it, which runs nothing:
#
#   . tools/lib.sh

own_name=${0##*/} own_name=${own_name%.*}

# Prints the head comment of the script, and ends, if one of its arguments is -h or --help.
begin_script() {
  printf '%s\n' "$@" | grep -qxE -- '-h|--help' || return 0
  # from where the script was called
  cd "$OLDPWD" || exit
  awk 'NR > 1 { if (!/^#/) exit; sub(/^# ?/, ""); print }' "$0"
  exit
}

# Ends with status 1 for a reason.
refuse() {
  echo "$own_name: $*" >&2
  exit 1
}

# Refuses the arguments of the script for a reason. The status is 2.
misused() {
  echo "$own_name: $1; '$0 --help' says what it takes" >&2
  exit 2
}

# Finds those of the files that the program may be made of for which these words of `find` hold.
find_sources() { find crates crates.txt \( -name out -o -name must-fail -o -name '*.md' \) -prune -o -type f "$@"; }

# Prints one that is newer than bin/gomod, if there is one.
newer_source() { find_sources -newer bin/gomod -print -quit; }

# Prints the names of the files that unproved programs are made of, with a NUL after each. Proofs aren't read.
program_sources() { find_sources ! -path '*/data/*' ! -path '*/proofs/*' -print0; }

# Prints the checksum of all that an unproved program is made of, but for the toolchain.
checksum_of_program() {
  program_sources | sort -z | xargs -0 sha256sum -- tools/release/unproved.{sh,py} | sha256sum | cut -d ' ' -f 1
}

# Prints the commit that is here, and whether there are changes.
commit_here() {
  local commit changes
  commit=$(git rev-parse HEAD) && changes=$(git status --porcelain) || return
  echo "$commit${changes:+ with changes}"
}

# Where a proof leaves the program, how its version ends, and what tools/release/unproved.sh puts there.
readonly PROVED_PROGRAM=crates/gomod/out/gomod PROVED_MARK='\(Rattle, logic [0-9a-f]{16}\)'
readonly UNPROVED_MARK='(Rattle, nothing is proved)'

# Whether bin/gomod is the program that the last proof left.
is_last_proved() {
  cmp -s bin/gomod "$PROVED_PROGRAM" && [[ $(bin/gomod --version) =~ $PROVED_MARK$ ]]
}

# Ends with status 1 if there is no bin/gomod, and warns if that is older than a source.
need_gomod() {
  local newer
  [ -x bin/gomod ] || refuse "there is no bin/gomod: ./build makes it, which can take an hour (./build --help)"
  newer=$(newer_source)
  [ -z "$newer" ] || echo "$own_name: bin/gomod is older than $newer: ./build makes it anew" >&2
}

# A folder that stands for / where the next functions read /proc and /sys: a test gives one with its own files.
GOMOD_MACHINE=${GOMOD_MACHINE:-}

# Prints what these files of a controller say in this process's control groups, of both versions, and in those above,
# which have the limits of a container: a paragraph for each group.
of_control_groups() {
  local controller=${1%%.*} folder
  { sed -En "s|^0::||p; s|^[0-9]+:([^:]*,)?$controller(,[^:]*)?:|/$controller|p" "$GOMOD_MACHINE/proc/self/cgroup" ||
    true; } | while read -r folder; do
    folder=$GOMOD_MACHINE/sys/fs/cgroup$folder
    until [ -z "$folder" ]; do
      cat "${@/#/$folder/}" || true
      echo
      folder=${folder%/*}
    done
  done
} 2> /dev/null

# How many MB of memory can be had: what the system has available, or less if a control group has a limit: this less
# what is in use, but for the pages of files, which it can give back.
free_memory_mb() {
  {
    awk '/^MemAvailable:/ { printf "%.0f 0\n\n", $2 * 1024 }' "$GOMOD_MACHINE/proc/meminfo"
    of_control_groups memory.{max,limit_in_bytes,current,usage_in_bytes,stat}
  } | awk -v RS= '{
    for (at = 3; at < NF; at += 2) { sub(/^total_/, "", $at); part[$at] = $(at + 1) }
    if ($1 $2 ~ /^[0-9]+$/) printf "%d\n", ($1 - $2 + part["active_file"] + part["inactive_file"]) / 1048576
  }' | sort -n | head -n 1
}

free_disk_mb() { df -Pk . | awk 'NR == 2 { print int($4 / 1024) }'; }

# How many processors there are to use, at least 1: those of this process, or fewer by the quota of a control group.
processors() {
  { printf '%d 1\n\n' "$(nproc)" && of_control_groups cpu.{max,cfs_quota_us,cfs_period_us}; } |
    awk -v RS= '$1 $2 ~ /^[0-9]+$/ { print ($1 < $2 ? 1 : int($1 / $2)) }' | sort -n | head -n 1
}

# Refuses what the first argument says if it lacks here the toolchain, so many MB of memory or so many of disk.
need_room() {
  local memory disk
  memory=$(free_memory_mb) disk=$(free_disk_mb)
  [ "$(uname -sm)" = "Linux x86_64" ] ||
    refuse "$1 needs x86-64 Linux, where the toolchain of Rattle runs, and this is $(uname -sm)"
  command -v rt > /dev/null ||
    refuse "$1 needs the command rt: install the toolchain of Rattle and put its bin/ on the PATH"
  [ "$memory" -ge "$2" ] || refuse "$1 needs $2 MB of memory, and $memory MB are free here"
  [ "$disk" -ge "$3" ] || refuse "$1 needs $3 MB of disk, and $disk MB are free"
}

# Whether a command of rt was killed, or what it said, in the file of the second argument, has that of what it started.
# 247 is how rt ends if a check is killed. In both cases memory was most likely short.
was_killed() {
  [ "$1" -eq 137 ] || [ "$1" -eq 247 ] || grep -qE \
    'was killed, most likely|\(SIGKILL\)|stopped by signal 9\b|memory allocation of .* failed|out of memory$' "$2"
}

# Ends all processes that one has started: a killed shell would leave them running.
end_below() {
  local child
  for child in $(ps -o pid= --ppid "$1"); do
    end_below "$child"
    kill "$child" 2> /dev/null || true
  done
}

# Copies the program, the files of share/, the documents and the examples to their usual places below a folder, and
# prints each place.
install_files() {
  local documents=$1/share/doc/gomod from
  install -D -t "$1/bin" bin/gomod
  echo "$1/bin/gomod"
  for from in share/*/*/*; do
    install -D -m 644 "$from" "$1/$from"
    echo "$1/$from"
  done
  mkdir -p "$documents"
  for from in README.md CHANGELOG.md docs example; do
    rm -rf "${documents:?}/$from"
    cp -r "$from" "$documents"
    echo "$documents/$from"
  done
}
