# The application that kills bbx on an EEPROM, in a machine that goes on running, until as many of
# its sessions were ended by SIGKILL as are handed over. What is lost is the process alone, so this
# is no loss of power.
handed=/sys/firmware/qemu_fw_cfg/by_name/opt
while read -r module options; do
  modprobe "$module" $options
done <"$handed/modules/raw"
echo 24c02 0x50 >/sys/bus/i2c/devices/i2c-0/new_device
cat "$handed/board/raw" >/run/board.dts
mkdir -p /run/loader && tar -x -C /run/loader <"$handed/entries/raw"
cd /run || exit

setting() {
  sed -n "s/^$1=//p" "$handed/conf/raw"
}
device=$(setting device) geometry=$(setting geometry)

# say TEXT: a line on the console, which has left the machine when this returns.
say() {
  echo "work: $1"
  stty -echo
}

# table: each of the state's values.
table() {
  say "table $(bbx "$device" "$geometry" state -i board.dts -d | sed 's/.*=//' | tr '\n' ' ')"
}

# ends STATUS: how a session ended.
ends() {
  case $1 in
    0) say "done" ;;
    137) say "killed" && round=$((round + 1)) ;;
    *) say "status $1" ;;
  esac
}

# The words of a session on the device.
session() {
  exec bbx --plan=/run/bbx.plan "$device" "$geometry" "$@" -i board.dts >said
}

# killed WORD ..: a session that gets SIGKILL after a time up to `most`, in microseconds, if it
# hasn't ended before. Where it has, the next one is given less time, and else more, so that half of
# them are killed.
most=100000
killed() {
  session "$@" &
  usleep $(((RANDOM * 32768 + RANDOM) % most))
  if kill -9 $! 2>/dev/null; then most=$((most * 5 / 4 + 1)); else most=$((most * 4 / 5 + 1)); fi
  wait $!
  ends $?
}

# planned: whether a plan is there.
planned() {
  [ ! -e bbx.plan ] || say "planned $(sed -n 's/^place //p' bbx.plan)"
}

round=0 number=0 kills=$(cat "$handed/kills/raw")
table
say boot
(session boot -c /etc/bbx.set)
ends $?
planned
table
while [ "$round" -lt "$kills" ]; do
  number=$((number + 1))
  case $((number % 3)) in
    1)
      say "set $number"
      killed state -s application.count=$number
      ;;
    2)
      rm -f bbx.plan
      say boot
      killed boot -c /etc/bbx.set
      planned
      ;;
    0)
      say good
      killed mark-good -c /etc/bbx.set
      ;;
  esac
  table
done
say "end"
sleep 600
