# shellcheck shell=bash
# What run, devices, faults, stops, starts, installs, pairs, memory and tests/bench begin with:
# `root` is the repository, and the array `program` the command that is tried. That is the proved
# program, which is built where it is missing, or COMMAND of the words `--program COMMAND`, as a
# build for a board under an emulator is: `qemu-aarch64-static FILE`. FILE is the last word of
# COMMAND.
root=$(cd "$(dirname "${BASH_SOURCE[0]}")/../.." && pwd) || exit 1
if [ "${1:-}" = --program ]; then
  read -ra program <<<"${2:-}"
  tried=${2:-}
  tried=${tried##* }
  [ -f "$tried" ] || { echo "--program: there is no file '$tried'" >&2; exit 2; }
  program[-1]=$(realpath "$tried") || exit 2
  shift 2
else
  "$root/bbx" --version >/dev/null || exit 1
  # shellcheck disable=SC2034
  program=("$root/crates/bbx/out/bbx")
fi
