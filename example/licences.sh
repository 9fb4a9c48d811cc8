#!/usr/bin/env bash
# Prints the licence files of the modules in the rows of gomod list, or that a module has none.
#
#   licences.sh FOLDER < ROWS     FOLDER is a module cache, $GOMODCACHE or ~/go/pkg/mod
#
# A replaced module is what replaces it; a folder that does is looked for from the folder in which this runs. A control
# byte in a name is printed as `?`. It needs GNU sed.
set -euo pipefail
export LC_ALL=C
shopt -s nullglob nocaseglob
help() { awk 'NR > 1 { if (!/^#/) exit; print substr($0, 3) }' < "$0" && exit "$1"; }
case $#:${1-} in 1:-h | 1:--help) help 0 ;; 1:?*) ;; *) help 2 >&2 ;; esac
modules=$1

while IFS= read -r row; do
  module=${row#* => }
  case $module in
    [./]*) folder=$module ;;
    *' '*) folder=$modules/$(printf '%s' "${module/ /@}" | sed 's/[A-Z]/!\L&/g') ;;
    *) continue ;; # the main module
  esac
  files=("$folder"/licen[cs]e* "$folder"/copying* "$folder"/unlicense*)
  if [ ${#files[@]} -eq 0 ]; then files=("$module: no licence file"); fi
  printf '%s\n' "${files[@]//[[:cntrl:]]/?}"
done
