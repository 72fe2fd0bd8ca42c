# shellcheck shell=bash
# What front, states and dt-utils share: runs of the front over a program that notes its words, and
# over the program itself, under the shell that the array `shell` names.
# shellcheck disable=SC2154
front=$root/front/barebox-state
# shellcheck disable=SC2034
defaults='bootstate.system0.remaining_attempts=3
bootstate.system0.priority=20
bootstate.system1.remaining_attempts=3
bootstate.system1.priority=10
bootstate.last_chosen=0
'

# tool COMMAND PACKAGE WHAT: whether there is such a command. Root installs it where a package
# manager is there for it, which is said; and where it can't be had, that WHAT is left out.
tool() {
  ! command -v "$1" >/dev/null || return 0
  have "$1" "$2" || { echo "skipped: $3, since $1 isn't there"; return 1; }
  echo "installed: the package $2"
}

# A conf file of these lines, the program's words in `said`, a line for each run, in place of a
# program, and no other file. Where its second word is `STUB_REFUSES` it ends with `STUB_STATUS`.
furnish() {
  printf '%s\n' "$@" >conf
  cat >stub <<'END'
#!/bin/sh
{ printf '<%s>' "$@"; echo; } >>said
[ "$2" != "${STUB_REFUSES:-}" ] || { echo why >&2; echo "fault of $2"; exit "$STUB_STATUS"; }
END
  chmod 755 stub
}

# shellcheck disable=SC2034
three=('device=/dev/mmcblk0p3' 'geometry=ov:1048576' 'input=/boot/board.dts')

# front_runs WORD ..: runs the front over that stub.
front_runs() {
  BBX_CONF=$PWD/conf BBX=$PWD/stub "${shell[@]}" "$front" "$@"
}

# says EXPECTED WORD ..: with these words the front runs the program with EXPECTED, and prints
# nothing.
says() {
  local wanted=$1 text
  shift
  rm -f said
  text=$(front_runs "$@" 2>&1) || echo "  $*: status $?"
  [ -z "$text" ] || echo "  $*: $text"
  [ "$(cat said 2>&1)" = "$wanted" ] || echo "  $*: it runs $(cat said 2>&1)"
}

# refuses LINE WORD ..: the front says this line on standard error, ends with the status of
# dt-utils' tool, and runs nothing.
refuses() {
  local wanted=$1 status
  shift
  rm -f said
  front_runs "$@" >text 2>errors
  status=$?
  [ "$status" = 1 ] || echo "  $*: status $status"
  [ ! -s text ] || echo "  $*: it prints $(cat text)"
  [ "$(cat errors)" = "barebox-state: $wanted" ] || echo "  $*: it says $(cat errors)"
  [ ! -e said ] || echo "  $*: it runs $(cat said)"
}

# The program beside the front, as both are installed.
put_beside() {
  cp "$front" barebox-state && cp "$front.awk" .
  {
    printf '#!/bin/sh\nexec'
    printf " '%s'" "${program[@]}"
    printf ' "$@"\n'
  } >bbx
  chmod 755 bbx
}

# asks STATUS TEXT ERROR WORD ..: runs the front over the program. Beside the line of a fault the
# program says a sentence.
asks() {
  local status=$1 text=$2 error=$3
  shift 3
  "${shell[@]}" ./barebox-state "$@" >text 2>errors
  [ $? = "$status" ] || echo "  $*: another status than $status"
  printf '%s' "$text" | cmp - text || cat text
  case $error in
    fault*) printf '%s' "$error" | cmp - <(grep -v '^bbx: ' errors) && [ "$(grep -c '^bbx: ' errors)" = 1 ] ;;
    *) printf '%s' "$error" | cmp - errors ;;
  esac || { echo "  $*: it says"; cat errors; }
}

# under_each_shell FUNCTION: calls it with `shell` for each POSIX shell that this machine has.
under_each_shell() {
  local words
  for words in dash 'bash --posix' 'busybox sh'; do
    read -ra shell <<<"$words"
    command -v "${shell[0]}" >/dev/null || { echo "skipped: the front under ${shell[0]}, which isn't there"; continue; }
    "$1"
  done
}
