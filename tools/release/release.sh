#!/usr/bin/env bash
# Makes a release: an archive of the proved program, its man page, its completions and its documents.
#
#   tools/release/release.sh FOLDER              after .ci/run, which leaves the gate's last line in bin/gate.txt
#   tools/release/release.sh FOLDER --gate LINE  after ./build; LINE is the last line of the gate on the same sources
#                                                elsewhere, 'N passed, 0 failed'
#   tools/release/release.sh --check             makes the archive of bin/gomod as it is, checks it and removes it
#   tools/release/release.sh --check --unproved  the same with a program that tools/release/unproved.sh made
#
# Into FOLDER it writes gomod-VERSION-x86_64-linux.tar.gz and beside it a file with its sha256. The archive has one
# folder with bin/ and share/; share/doc/gomod/ has the documents and examples, adapted, and RELEASE.txt: version,
# commit, the gate's last line, the records below, what the program needs and its sha256. The same files give the same
# archive.
#
# It unpacks what it made, and refuses an archive with a dangling link, an example that prints something else
# (tools/try/readme.py) or another glibc in its documents than the program needs; without --unproved, also a program
# whose version doesn't say that it is proved. Unless --check is given, it refuses a version that isn't the first one in
# CHANGELOG.md with its day, or whose tag (as v1.2.0) is at another commit, a program that isn't the one that the last
# proof left, a gate that failed or ran with another program, changes that aren't committed, and a program without one
# of the records below.
#
# It needs bin/gomod, git, GNU tar, gzip and python3. The status is 1 if it refuses, and 2 for wrong arguments.
set -euo pipefail
from=$PWD
cd "$(dirname "$0")/../.."
# shellcheck source=tools/lib.sh
. tools/lib.sh
begin_script "$@"

# The least version of glibc that a program needs: the greatest of those whose symbols it names.
least_glibc() { grep -aoE 'GLIBC_[0-9]+(\.[0-9]+)+' "$1" | cut -d _ -f 2 | sort -uV | tail -n 1; }

# Prints the first line of a file of bin/, which a script has to leave first, and refuses it if the last one isn't of
# bin/gomod, or of its sources.
record_of() {
  local line sum
  [ -f "bin/$1.txt" ] || refuse "there is no bin/$1.txt: run $2"
  line=$(head -n 1 "bin/$1.txt")
  case $1 in
    checked | mistakes) sum=$(checksum_of_program) ;;
    *) sum=$(sha256sum bin/gomod) ;;
  esac
  [ "$(tail -n 1 "bin/$1.txt")" = "$sum" ] || refuse "bin/$1.txt is of another program or sources ($line): run $2"
  echo "$line"
}

# Refuses a version that CHANGELOG.md doesn't begin with, and date, or that is tagged at another commit.
refuse_version() {
  local first tagged
  first=$(grep -m 1 '^## ' CHANGELOG.md) || true
  [[ $first =~ ^"## $1 ("[0-9]{4}-[0-9]{2}-[0-9]{2}\)$ ]] ||
    refuse "CHANGELOG.md begins with '${first#\#\# }', and not with '$1' and its day in brackets"
  tagged=$(git rev-parse --verify --quiet "v$1^{commit}") || return 0
  [ "$tagged" = "$(git rev-parse HEAD)" ] || refuse "the tag v$1 is at another commit, $tagged"
}

# Makes the documents of a folder those of a release. A link to a file that the release lacks becomes its text alone,
# and examples call `gomod`. In README.md the second argument takes the place of the sections on making a program.
adapt_documents() {
  python3 -B - "$@" << 'PYTHON'
import pathlib
import re
import sys

top, note = pathlib.Path(sys.argv[1]), sys.argv[2]


def linked(found):
    target = file.parent / found[2].partition("#")[0]
    return found[0] if re.match("#|[a-z]+:", found[2]) or target.exists() else found[1]


for file in top.rglob("*.md"):
    text = file.read_text()
    if file == top / "README.md":
        text, count = re.subn(r"(?ms)^## Try it\n.*?(?=^## When to use it\n)", lambda _: note, text)
        if count != 1:
            sys.exit("release: README.md has no section 'Try it' before 'When to use it'")
    text = re.sub(r"\[([^\]]+)\]\(([^)\s]+)\)", linked, text)
    file.write_text(re.sub(r"(?m)^    \$ .*", lambda it: it[0].replace("bin/gomod", "gomod"), text))
PYTHON
}

# Lays the files of a release below a folder: its version, and the records of what it rests on.
lay_release() {
  local to=$1 documents=$1/share/doc/gomod glibc
  install_files "$to" > /dev/null
  glibc=$(least_glibc bin/gomod) || refuse "bin/gomod names no version of glibc"
  adapt_documents "$documents" "Release ${2%% *}, for x86-64 Linux with glibc $glibc or later. Files that are named \
without a link are in the repository, at the commit of \`RELEASE.txt\`.

## Try it

Unpack the archive where its \`bin\` is on the \`PATH\`, and print the build list of your own module from go's cache:

    mkdir -p ~/.local && tar -xzf $name.tar.gz -C ~/.local --strip-components=1
    gomod list --proxy ~/go/pkg/mod/cache/download

If go never filled that folder, [fill one without Go](docs/use/RECIPES.md#a-folder-filled-without-go). The examples \
run in this folder, \`share/doc/gomod\`.

"
  {
    echo "gomod $2"
    echo "commit $(git rev-parse HEAD)"
    echo "$records"
    echo "needs: x86-64 Linux, glibc $glibc or later"
    sha256sum bin/gomod
  } > "$documents/RELEASE.txt"
  # what depends on the user is left out
  find "$to" -type d -exec chmod 755 {} +
  find "$documents" -type f -exec chmod 644 {} +
  chmod 755 "$documents"/example/*.sh
}

# Unpacks an archive, and tries its documents with its program.
check_archive() {
  local top=$work/unpacked least said
  mkdir "$top"
  tar --extract --gzip --file "$1" --directory "$top" --strip-components=1
  tools/try/readme.py --archive "$top" || refuse "the archive has faulty links or examples"
  least=$(least_glibc "$top/bin/gomod")
  said=$(grep -rhoE 'glibc [0-9]+(\.[0-9]+)+' "$top/share/doc/gomod" README.md | sort -u)
  [ "$said" = "glibc $least" ] || refuse "the program needs glibc $least, and the documents say: ${said//$'\n'/, }"
  echo "glibc: $least is the least"
}

to=$from gate='' check='' unproved=''
case $#:${1-}:${2-} in
  1:--check:) check=yes ;;
  2:--check:--unproved) check=yes unproved=yes ;;
  1:?*:) to=$1 ;;
  3:?*:--gate) to=$1 gate=$3 ;;
  *) misused "it takes --check, or a folder and possibly --gate and a line" ;;
esac
case $to in
  -*) misused "unknown argument '$to'" ;;
  /*) ;;
  *) to=$from/$to ;;
esac

need_gomod
if [ -z "$check" ]; then
  is_last_proved || refuse "bin/gomod isn't the program that the last proof left at $PROVED_PROGRAM: run .ci/run"
  [ -n "$gate" ] || gate=$(record_of gate ".ci/run, or give the gate's last line with --gate")
  [[ $gate =~ ^[1-9][0-9]*\ passed,\ 0\ failed$ ]] || refuse "this is no gate that passed: '$gate'"
  [ -z "$(git status --porcelain)" ] || refuse "there are changes that aren't committed"
fi
# each record: its file, what leaves it, and what it is called in RELEASE.txt
records="gate: ${gate:-none}" record=none
while IFS='|' read -r name how label; do
  [ -n "$check" ] || record=$(record_of "$name" "$how")
  records+=$'\n'"$label: $record"
done << 'RECORDS'
refused|tools/try/refuse-memory.sh|each allocation refused
opened|tools/try/program.py, where strace is|what each command opens
checked|tools/try/cases.sh --checked|cases with checks
mistakes|tools/try/mistakes.py|wrong bodies
texts|tools/go/compare_go.py --check, where go 1.19.8 is|texts beside go
RECORDS

version=$(bin/gomod --version)
[[ -n $unproved || $version =~ $PROVED_MARK$ ]] || refuse "bin/gomod isn't proved: its version is '$version'"
version=${version#gomod }
[ -n "$check" ] || refuse_version "${version%% *}"
name=gomod-${version%% *}-x86_64-linux
work=$(mktemp -d)
trap 'rm -rf "$work"' EXIT
lay_release "$work/$name" "$version"
# what depends on the moment or the user is left out
tar --create --directory "$work" --sort=name --owner=0 --group=0 --numeric-owner \
  --mtime="@$(git log -1 --format=%ct)" "$name" | gzip -9n > "$work/$name.tar.gz"
check_archive "$work/$name.tar.gz"
[ -z "$check" ] || exit 0

mkdir -p "$to"
cp "$work/$name.tar.gz" "$to"
(cd "$to" && sha256sum "$name.tar.gz" > "$name.tar.gz.sha256")
echo "$to/$name.tar.gz"
echo "$to/$name.tar.gz.sha256"
echo "$records"
echo "sha256: $(cut -d ' ' -f 1 "$to/$name.tar.gz.sha256")"
