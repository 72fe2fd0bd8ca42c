# The application of a machine that loses power: it saves values one after another, and says of each
# on the console that it is about to be saved, and then, once bbx has ended, that it was. It holds
# the device open, so that the closing of the device by bbx alone brings nothing to the disk.
setting() {
  sed -n "s/^$1=//p" /etc/bbx.conf
}
device=$(setting device) geometry=$(setting geometry)
exec 3<"$device"

# say TEXT: a line on the console, which has left the machine when this returns.
say() {
  echo "work: $1"
  stty -echo
}

# table: each of the state's values.
table() {
  bbx "$device" "$geometry" state -i /etc/board.dts -d | sed 's/.*=//' | tr '\n' ' '
}

# save WORD ..: sets these variables.
save() {
  bbx "$device" "$geometry" state -i /etc/board.dts "$@" || say "status $?"
}

line=$(table)
say "table $line"
count=${line% }
count=${count##* }
prefix=bootstate.system
while :; do
  count=$((count + 1))
  say "set $count"
  save -s application.count=$count
  say "done"
  case $((count % 6)) in
    2)
      say good
      bbx "$device" "$geometry" mark-good -i /etc/board.dts -c /etc/bbx.set >/run/said
      say "done"
      ;;
    5)
      first=$((count / 6 % 2))
      say "prefer $first"
      save -s ${prefix}$first.priority=20 -s ${prefix}$((1 - first)).priority=10
      say "done"
      ;;
  esac
done
