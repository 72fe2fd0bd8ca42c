# shellcheck shell=bash
# What devices, faults, stops, starts, pairs and memory share: the program, a folder to work in, and
# checks that are counted.
#
# A check is a function that says what is wrong and is silent where nothing is. Each has one line of
# output, and what cannot be tried on this machine has one that says so. The last line is `N passed,
# N failed`.
set -u
# shellcheck source=program.sh
. "$(dirname "${BASH_SOURCE[0]}")/program.sh"
work=$(cd "$(mktemp -d)" && pwd -P) || exit 1
trap 'clear_up' EXIT

# The record of the area `123456789` with the magic 0x12345678, after its stride's front, as
# docs/FORMATS.md has it.
record='\xf3\xfd\x54\x23\x19\0\0\0\x78\x56\x34\x12\0\0\x09\0\x26\x39\xf4\xcb\x03\x2e\x3c\xdf123456789'
# shellcheck disable=SC2034
save=(raw 0x12345678 9 -s 313233343536373839)
# shellcheck disable=SC2034
look=(raw 0x12345678 9 -g)

passed=0 failed=0

# check NAME FUNCTION [WORD ..]: runs the function in a folder of its own, with these words.
check() {
  local name=$1 says
  shift
  mkdir "$work/$((passed + failed))" && cd "$work/$((passed + failed))" || exit 1
  says=$("$@" 2>&1)
  cd "$work" || exit 1
  if [ -z "$says" ]; then
    passed=$((passed + 1))
    echo "ok: $name"
  else
    failed=$((failed + 1))
    printf 'FAILED: %s\n%s\n' "$name" "$says"
  fi
}

# The last line, and whether no check failed.
finish() {
  echo "$passed passed, $failed failed"
  [ "$failed" -eq 0 ]
}

# expect STATUS TEXT WORD ..: runs the program with these words, and says where status or text are
# others. It has 20 seconds, or as many as `seconds` says. What stands in the array `under` runs it,
# and `sentence` is the line that standard error has, if any.
under=() sentence='' seconds=20
expect() {
  local wanted=$1 text=$2 status
  shift 2
  timeout -k 5 "$seconds" "${under[@]}" "${program[@]}" "$@" >text 2>errors
  status=$?
  [ "$status" = "$wanted" ] || echo "  status $status, not $wanted"
  printf '%s' "$text" | cmp -s - text || { echo "  printed:"; sed 's/^/    /' text; }
  printf '%s' "${sentence:+$sentence$'\n'}" | cmp -s - errors || { echo "  on standard error:"; sed 's/^/    /' errors; }
}

# explains SENTENCE STATUS TEXT WORD ..: as expect, with --explain in front of the words, and this
# line.
explains() {
  sentence="bbx: $1"
  expect "$2" "$3" --explain "${@:4}"
  sentence=''
}

# blank FILE SIZE: a file of that many bytes 0xFF.
blank() {
  head -c "$2" /dev/zero | tr '\0' '\377' >"$1"
}

# put_record FILE AT ..: writes the record into the file at these places.
put_record() {
  local file=$1 at
  shift
  for at; do
    # shellcheck disable=SC2059
    printf "$record" | dd of="$file" bs=1 seek="$at" conv=notrunc status=none
  done
}

# same FILE OTHER: says where two files differ.
same() {
  cmp "$1" "$2" 2>&1 | sed 's/^/  /'
}

# have COMMAND PACKAGE: whether there is such a command. Root installs it where a package manager is
# there for it.
have() {
  command -v "$1" >/dev/null && return
  [ "$(id -u)" = 0 ] && command -v apt-get >/dev/null || return
  timeout 60 apt-get -qq -y install "$2" >/dev/null 2>&1 ||
    { timeout 60 apt-get -qq update && timeout 60 apt-get -qq -y install "$2"; } >/dev/null 2>&1
  command -v "$1" >/dev/null
}

# attach FILE [OPTION ..]: makes the file a loop device, and prints its node, which is made where it
# is missing.
attach() {
  local file=$1 node
  shift
  node=$(losetup -f) || return
  [ -b "$node" ] || mknod "$node" b 7 "${node#/dev/loop}" || return
  losetup -f --show "$@" "$file"
}

# Whether loop devices work here.
have_loop_devices() {
  local node
  have losetup mount || return
  truncate -s 4096 "$work/probe" && node=$(attach "$work/probe" 2>/dev/null) && losetup -d "$node"
}

clear_up() {
  local node file
  if command -v losetup >/dev/null; then
    losetup -nl -O NAME,BACK-FILE 2>/dev/null | while read -r node file; do
      [[ $file != "$work"/* ]] || losetup -d "$node"
    done
  fi
  rm -rf "$work"
}
