#!/usr/bin/env bash
# Proves and builds a program, then runs it on standard input. The scripts bin/paths, bin/probe and bin/kinds call it with their own name and arguments.
#
#   tools/program.sh bin/NAME [ARGUMENT...]
#
# A line that begins with a byte order mark or ends in a carriage return is told of and ends the run: a program would take these bytes for a part of the line.
# Programs are for Linux on x86-64, as the toolchain is.
set -euo pipefail
root=$(cd "$(dirname "$0")/.." && pwd -P)
script=$1 name=$(basename "$1")
shift
# What the script's head says.
head_of_script() { sed -n '2,/^[^#]/s/^# \{0,1\}//p' "$script"; }
if [ $# -gt 0 ]; then
    case $1 in -h | --help) head_of_script; exit 0 ;; esac
    echo "bin/$name takes no argument, and got: $1" >&2
    head_of_script >&2
    exit 2
fi
"$root/tools/prove.sh" "$name"
[ ! -t 0 ] || head_of_script >&2

set +e
LC_ALL=C sed -u -e '/^\xEF\xBB\xBF/Q3' -e '/\r$/Q4' | "$root/crates/$name/out/$name"
ended=("${PIPESTATUS[@]}")
case ${ended[0]} in
3) echo "bin/$name: the next line begins with a byte order mark (the bytes EF BB BF), which is no part of it. Save the file as UTF-8 without one. The lines before it are answered." >&2 ;;
4) echo "bin/$name: the next line ends in a carriage return, as in files from Windows. Remove them, as with: tr -d '\\r'. The lines before it are answered." >&2 ;;
*) exit "${ended[1]}" ;;
esac
exit 2
