# shellcheck shell=dash
# What the first stage, a system's initial RAM disk and a system begin with.

# The kernel's own file systems, and what is lost at the end.
mount_kernel() {
  mount -t devtmpfs dev /dev 2>/dev/null
  mount -t proc proc /proc
  mount -t sysfs sys /sys
  mount -t tmpfs run /run
  dmesg -n 1
}

# Loads each module that a line of the input names, with its options.
load_modules() {
  local module options
  while read -r module options; do
    # shellcheck disable=SC2086
    modprobe "$module" $options || echo "the module $module can't be loaded"
  done
}

# Names each partition /dev/disk/by-partlabel/NAME, as udev does.
name_partitions() {
  local uevent device name key value
  mkdir -p /dev/disk/by-partlabel
  for uevent in /sys/class/block/*/uevent; do
    device='' name=''
    while IFS='=' read -r key value; do
      case $key in DEVNAME) device=$value ;; PARTNAME) name=$value ;; esac
    done <"$uevent"
    [ -z "$name" ] || ln -sf "/dev/$device" "/dev/disk/by-partlabel/$name"
  done
}

# wait_for PATH: whether it is there, within ten seconds. Disks are found some time after their
# driver was loaded.
wait_for() {
  local left=100
  name_partitions
  until [ -e "$1" ]; do
    [ "$left" -gt 0 ] || return
    left=$((left - 1))
    sleep 0.1
    name_partitions
  done
}

# The device that root= names in a kernel's options.
root_of() {
  local word
  for word in $1; do
    case $word in
      root=PARTLABEL=*) echo "/dev/disk/by-partlabel/${word#root=PARTLABEL=}" ;;
      root=/dev/*) echo "${word#root=}" ;;
    esac
  done
}
