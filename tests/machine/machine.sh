# shellcheck shell=bash
# The machine of run: how it is made, started, heard and cut off. `root`, `work`, `kernel` and
# `emulate` are those of run, and what the console says goes to model.sh.

# The emulator, and by emulation what a kernel is told so that it starts quickly there. `processor`
# is what stands for `-accel kvm -cpu host`: the program is built for x86-64-v2, which QEMU's own
# choice isn't. The kernel's look at its timer is left out: a kernel that is given too little time
# ends there.
processor=(-accel kvm -cpu host) quick=''
if [ -n "$emulate" ]; then
  processor=(-accel tcg -cpu Nehalem)
  quick=' mitigations=off nokaslr cryptomgr.notests tsc=reliable no_timer_check lpj=4000000 audit=0 apparmor=0'
  quick+=' ipv6.disable=1 numa=off i6300esb.heartbeat=1800'
fi
machine=(qemu-system-x86_64 "${processor[@]}" -machine q35 -m 512 -nodefaults -display none -serial stdio)

# The time in milliseconds, in `millis`.
now() {
  millis=${EPOCHREALTIME/[.,]/}
  millis=$((millis / 1000))
}

# power_on FOLDER WORD ..: starts the machine that was made in a folder, with these words of the
# emulator beside its own. Its console is read from `console`.
qemu='' console='' rest='' ended='' log=/dev/null
power_on() {
  local folder=$1 words=()
  shift
  [ ! -e "$folder/begun" ] || words=(-incoming "exec:cat $folder/begun")
  exec {console}< <(exec "${machine[@]}" -device i6300esb -kernel "$folder/vmlinuz" -initrd "$folder/initramfs" \
    -append "console=ttyS0 quiet$quick" -drive "file=$folder/disk.img,format=raw,if=virtio" "${words[@]}" "$@" \
    </dev/null 2>&1)
  qemu=$! rest='' ended=''
}

# listen MILLISECONDS [PATTERN]: hears the console for so long, or until a line is of the pattern;
# whether one was.
listen() {
  local until pattern=${2:-} left piece line status
  now
  until=$((millis + $1))
  while now; left=$((until - millis)); [ $left -gt 0 ] && [ -z "$ended" ]; do
    IFS= read -r -t "$((left / 1000)).$(printf '%03d' $((left % 1000)))" -u "$console" piece
    status=$?
    rest+=$piece
    [ $status -lt 128 ] || continue
    [ $status = 0 ] || { ended=yes; break; }
    line=${rest%$'\r'} rest=''
    now
    echo "$millis $line" >>"$log"
    hear "$line"
    time_it "$line"
    # shellcheck disable=SC2053
    [ -z "$pattern" ] || [[ $line != $pattern ]] || return 0
  done
  return 1
}

# time_it LINE: how long boots and saves take here, in milliseconds. Moments are drawn by it.
boot_time=500 save_time=100 boot_begun='' save_begun=''
time_it() {
  case $1 in
    'first stage: boot, '*) boot_begun=$millis ;;
    'first stage: start '*) boot_time=$((millis - boot_begun + 10)) ;;
    'work: set '*) save_begun=$millis ;;
    'work: done') [ -z "$save_begun" ] || save_time=$((millis - save_begun + 10)) save_begun='' ;;
  esac
}

# lose_power: the emulator is killed, and what it has said is heard to its end.
lose_power() {
  kill -9 "$qemu" 2>/dev/null
  listen 5000
  wait "$qemu" 2>/dev/null
  qemu=''
  exec {console}<&-
  echo "$millis -- power is lost" >>"$log"
  power_is_lost
}

# a_life MOMENT FOLDER WORD ..: from the switching on of power to its loss, which comes in the first
# stage's boot, or in the work of the system that it has started. A machine that doesn't come so far
# is wrong.
a_life() {
  local awaited='first stage: boot, *' within=$((2 * boot_time))
  [ "$1" = boot ] || awaited='work: table *' within=$((30 * save_time))
  shift
  power_on "$@"
  if hears 300000 "$awaited"; then listen $((1 + RANDOM % within)); else is_wrong "the machine hasn't come so far"; fi
  [ -z "$ended" ] || is_wrong "the machine has ended by itself"
  lose_power
}

# hears MILLISECONDS LINE: whether this is said in time. Emulation is given ten times as long.
hears() {
  listen $(($1${emulate:+ * 10})) "$2" || { echo "  this isn't said: $2"; tail -n 5 "$log" | sed 's/^/    /'; return 1; }
}

# Whether a guest boots on /dev/kvm: a kernel whose /init says a line.
boots_a_guest() {
  mkdir -p "$work/probe/bin" && cp "$(command -v busybox)" "$work/probe/bin" || return
  printf '#!/bin/busybox sh\n/bin/busybox echo a guest boots >/dev/console\n' >"$work/probe/init" || return
  chmod 755 "$work/probe/init" && mkdir "$work/probe/dev" && mknod "$work/probe/dev/console" c 5 1 || return
  (cd "$work/probe" && find . | cpio --quiet -o -H newc | gzip -1 >"$work/probe.gz") || return
  timeout -s KILL 30 "${machine[@]}" -kernel "$kernel"/boot/vmlinuz-* -initrd "$work/probe.gz" \
    -append 'console=ttyS0 quiet panic=-1' -no-reboot </dev/null 2>&1 | grep -q 'a guest boots'
}

# make_machine NAME BBX [WORD ..]: a machine in the folder NAME of `work`, by integration/ab/make
# with these words.
make_machine() {
  local folder=$work/$1 bbx=$2
  shift 2
  [ -e "$folder" ] || "$root/integration/ab/make" ${quick:+--options "${quick# }"} "$@" "$kernel" "$bbx" "$folder" \
    >"$work/said" 2>&1 || { cat "$work/said"; return 1; }
}

# begin_at_init FOLDER WORD ..: by emulation a machine goes on, at each start, from where its first
# stage begins. There no disk has been looked at yet but for its partitions. What it is then is kept
# in FOLDER/begun.
begin_at_init() {
  local folder=$1 monitor
  [ -n "$emulate" ] && [ ! -e "$folder/begun" ] || return 0
  mkfifo "$folder/monitor.in" "$folder/monitor.out" && exec {monitor}<>"$folder/monitor.in" || return
  power_on "$@" -chardev "pipe,id=monitor,path=$folder/monitor" -mon monitor -global migration.store-global-state=off
  hears 300000 'first stage: begins'
  printf 'stop\nmigrate "exec:cat >%s"\nquit\n' "$folder/begun.new" >&$monitor
  listen 600000 'first stage: boot, *' && echo "  the first stage had gone on"
  [ -n "$ended" ] && mv "$folder/begun.new" "$folder/begun"
  kill -9 "$qemu" 2>/dev/null
  wait "$qemu" 2>/dev/null
  qemu=''
  exec {console}<&- {monitor}<&-
  [ -e "$folder/begun" ] || echo "  the machine's beginning can't be kept"
}
