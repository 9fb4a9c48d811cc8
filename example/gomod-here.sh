#!/usr/bin/env bash
# gomod list, graph or chain of the module that this folder is in, with the files that go would take: go.mod of this
# folder or of the nearest above it, the go.sum beside it if there is one, and go's module cache. It doesn't run go.
#
#   gomod-here.sh list|graph|chain ..      everything after the command is for gomod
#
# It needs gomod on the PATH. The status is gomod's, or 3 if there is no go.mod or no cache. It reads no go.work.
set -euo pipefail
help() { awk 'NR > 1 { if (!/^#/) exit; print substr($0, 3) }' < "$0" && exit "$1"; }
case ${1-} in list | graph | chain) ;; -h | --help) help 0 ;; *) help 2 >&2 ;; esac

refuse() {
  echo "gomod-here: $1" >&2
  exit 3
}

folder=${PWD%/}
until [ -f "$folder/go.mod" ]; do
  [ -n "$folder" ] || refuse "there is no go.mod in $PWD or above it"
  folder=${folder%/*}
done

# A setting of go: what `go env -w` wrote counts if the environment says nothing.
settings=${GOENV:-${XDG_CONFIG_HOME:-$HOME/.config}/go/env}
setting() {
  local value=${!1-}
  [ -n "$value" ] || [ "$settings" = off ] || value=$(sed -n "s/^$1=//p" "$settings" 2> /dev/null | tail -n 1)
  printf '%s\n' "$value"
}
cache=$(setting GOMODCACHE)
if [ -z "$cache" ]; then
  cache=$(setting GOPATH)
  cache=${cache%%:*}
  cache=${cache:-$HOME/go}/pkg/mod
fi
[ -d "$cache/cache/download" ] || refuse "there is no $cache/cache/download; 'go mod download' fills it"

words=(--mod "$folder/go.mod" --proxy "$cache/cache/download")
[ ! -e "$folder/go.sum" ] || words+=(--sum "$folder/go.sum")
exec gomod "$@" "${words[@]}"
