# shellcheck shell=bash
# What run and shapes begin with: the tools that they need, the program, a folder to work in, and
# what a command costs. `program` is the proved program, or FILE of the words `--program FILE`, as
# tests/cli/program.sh says; for media.py there is its folder in `here`.
set -u
here=$(cd "$(dirname "${BASH_SOURCE[0]}")" && pwd) || exit 1
for tool in valgrind strace python3; do
  command -v "$tool" >/dev/null 2>&1 || { echo "tests/bench/$(basename "$0"): skipped, since $tool isn't installed"; exit 0; }
done
# shellcheck source=../cli/program.sh
. "$here/../cli/program.sh"
# The interpreter itself, where `python3` is a script that looks for it.
python=$(python3 -c 'import sys; print(sys.executable)') || exit 1
export PYTHONPATH=$here PYTHONDONTWRITEBYTECODE=1
work=$(mktemp -d) || exit 1
trap 'rm -rf "$work"' EXIT
cd "$work" || exit 1

instructions() {
  valgrind --tool=callgrind --callgrind-out-file=/dev/null "$@" 2>&1 >/dev/null | sed -n 's/.*refs: *//p' | tr -d ,
}

# The greatest resident memory of a command, in bytes. What it prints goes into the file `text`, and
# its status into the file `ended`. The command is a child of a shell, whose own memory is small,
# and not of Python: what a process had before it became the command counts as the command's.
memory() (
  "$@" >text 2>/dev/null
  echo $? >ended
  exec "$python" -c 'import resource; print(resource.getrusage(resource.RUSAGE_CHILDREN).ru_maxrss * 1024)'
)

# The file that a command changes, if it does, holds what the file NAME.before holds before each
# run.
changed=''
restore() {
  [ -z "$changed" ] || cp "$changed.before" "$changed"
}
