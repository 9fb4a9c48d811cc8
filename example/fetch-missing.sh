#!/usr/bin/env bash
# Fills a folder with the go.mod files that gomod needs for a main file, without go: gomod says which are missing, and
# curl gets these from a module proxy, many at a time, until none is. Then it prints the build list.
#
#   fetch-missing.sh GO.MOD FOLDER URL     URL as in GOPROXY, such as https://proxy.golang.org or file:///a/folder
#
# It needs gomod and curl (7.75 or newer) on the PATH. `gomod list --sum` checks the files afterwards. Each URL that
# fails is named once. The status is 1, and gomod's report is printed, if a round gets none of the missing files. GO.MOD
# may be a stranger's: curl is told only paths and versions that gomod reads, and FOLDER has to have no links.
set -euo pipefail
export LC_ALL=C
help() { awk 'NR > 1 { if (!/^#/) exit; print substr($0, 3) }' < "$0" && exit "$1"; }
case $#:${1-} in 3:*) ;; 1:-h | 1:--help) help 0 ;; *) help 2 >&2 ;; esac
mod=$1 folder=$2 url=$3
declare -A asked=()

refuse() {
  echo "fetch-missing: $1" >&2
  exit 1
}

# The modules that are missing, and those that replace others: a report names the replaced module.
wanted() {
  sed -n 's/^\(.*\)@\(v[^@]*\): Missing$/\1 \2/p' <<< "$report"
  gomod fmt "$mod" | tr -d '"`' | sed 's|//.*||' | awk 'NF > 2 && $(NF - 2) == "=>" { print $(NF - 1), $NF }'
}

# Whether gomod reads these as a path and a version. What replaces a module need not fit: it may be a.b/c v2.0.0.
is_read() {
  local fault
  fault=$(gomod edit - "require=$1@$2" <<< 'module m' 2>&1 > /dev/null) || [ "$fault" = 'edit 1: Misfit' ]
}

# Sets `missing` to the files of these modules, as a proxy names them, that aren't there. It takes each only once.
find_missing() {
  local path version file letter
  missing=()
  while read -r path version; do
    [ -z "${asked[$path $version]-}" ] || continue
    asked[$path $version]=yes
    is_read "$path" "$version" || continue
    file=$path/@v/$version.mod
    for letter in {A..Z}; do file=${file//$letter/!${letter,}}; done
    [ -e "$folder/$file" ] || missing+=("$file")
  done < <(wanted)
}

# Lines for a curl that gets these files. A transfer that breaks off leaves no file without .part.
transfers() {
  local file
  for file; do printf 'url = "%s"\noutput = "%s"\n' "$url/$file" "$file.part"; done
}

# Goes to the folder, where no file becomes larger than gomod reads.
enter() { CDPATH='' cd -- "$folder" && trap '' XFSZ && { ulimit -f 16384 || :; }; }

# Gets files, and sets `got` to how many.
get() {
  local code file why
  got=0
  [ $# -gt 0 ] || return 0
  while IFS=$'\t' read -r code file why; do
    file=${file#"$url/"}
    if [ "$code" -eq 0 ]; then
      mv "$folder/$file.part" "$folder/$file"
      got=$((got + 1))
    else
      echo "$url/$file: $why" >&2
    fi
  done < <(transfers "$@" | (enter && exec curl --parallel --create-dirs --fail --location --globoff --speed-time 30 \
    --no-progress-meter --write-out '%{exitcode}\t%{url}\t%{errormsg}\n' --config -) 2> /dev/null)
}

[[ $url != *[\"\\[:cntrl:]]* ]] || refuse "a URL has no \", \\ or control byte"
mkdir -p -- "$folder"
link=$(find "$folder" -type l -print -quit)
[ -z "$link" ] || refuse "$link is a link, and may lead out of the folder"
for ((round = 1; ; round++)); do
  if report=$(gomod list --mod "$mod" --proxy "$folder" 2>&1); then break; fi
  got=0
  if grep -q ': Missing$' <<< "$report"; then
    find_missing
    get "${missing[@]}"
  fi
  if [ "$got" -eq 0 ]; then printf '%s\n' "$report" >&2 && exit 1; fi
  echo "round $round: $got files" >&2
done
printf '%s\n' "$report"
