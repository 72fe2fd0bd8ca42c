# shellcheck shell=bash
# What a machine's state may be, from what its console has said. A table is the text `A P A P LAST
# COUNT`: attempts and priority of system0 and of system1, the system that was chosen last, and the
# application's number. `may` has each table that the device may hold: the last one that was
# acknowledged, and that of a save which was begun since. What differs from that is wrong. Boots are
# those of integration/ab/bbx.set, whose systems have 3 attempts by default.
declare -A may=()
fresh='3 20 3 10 0 0'
known='' begun='' seen_boot='' before=() planned='' happened=''
starts=0 attempts=0 acknowledged=0 wrong=0 killed=0 interrupted=0

# now_is TABLE ..: these tables are all that there may be.
now_is() {
  local table
  may=()
  for table; do
    may[$table]=1
  done
}

# new_model: a device on which no copy passes.
new_model() {
  now_is "$fresh"
  known=yes begun='' seen_boot='' planned='' starts=0 attempts=0 acknowledged=0 wrong=0 killed=0 interrupted=0
}

# is_wrong TEXT: counts, and says, what may not be.
is_wrong() {
  wrong=$((wrong + 1))
  echo "  wrong: $1"
  printf '    there may be: %s\n' "${!may[@]}"
}

# after_save SAVE TABLE: the table that a save leaves, in `table`. A boot's target and the attempts
# that it has left then are in `target`; that is empty where no target qualifies.
after_save() {
  local left rank best=-1 i last count
  read -r "left[0]" "rank[0]" "left[1]" "rank[1]" last count <<<"$2"
  target=''
  case $1 in
    set\ *) count=${1#set } ;;
    prefer\ *) rank=([${1#prefer }]=20 [1 - ${1#prefer }]=10) ;;
    good) [ "$last" = 0 ] || left[last - 1]=3 ;;
    boot)
      if ((rank[0] + rank[1] > 0 && rank[0] * left[0] + rank[1] * left[1] == 0)); then
        left=(3 3)
      fi
      for i in 1 0; do
        ((rank[i] > 0 && left[i] > 0)) || continue
        ((best >= 0 && rank[best] > rank[i])) || best=$i
      done
      if ((best >= 0)); then
        left[best]=$((left[best] - 1)) last=$((best + 1)) target="system$best left ${left[best]}"
      fi
      ;;
  esac
  table="${left[0]} ${rank[0]} ${left[1]} ${rank[1]} $last $count"
}

# begin SAVE: from now on the device may hold what that leaves.
begin() {
  local old table target
  begun=$1 seen_boot=yes before=("${!may[@]}")
  for old in "${before[@]}"; do
    after_save "$1" "$old"
    may[$table]=1
  done
}

# done_with [TARGET]: the save that was begun is acknowledged, for a boot with this target.
done_with() {
  local old table target after=()
  for old in "${before[@]}"; do
    after_save "$begun" "$old"
    [ $# = 1 ] && [ "$target" != "$1" ] || after+=("$table")
  done
  begun=''
  [ -z "$known" ] || [ ${#after[@]} -gt 0 ] || { is_wrong "$1 was started"; known=''; }
  now_is "${after[@]}"
}

# hear LINE: what a line of the console says.
hear() {
  case $1 in
    'first stage: boot, cause '*) begin boot ;;
    'first stage: start '*' tries 1') booted "${1#first stage: start }" ;;
    'first stage: kexec '*" rauc.slot=$planned"*) ;;
    'first stage: kexec '*) is_wrong "the plan is of $planned, and this is started: $1" ;;
    'first stage: '*'starts anew') is_wrong "$1" ;;
    *' is up') is_up "${1% is up}" ;;
    'work: table '*) holds "${1#work: table }" ;;
    'work: set '* | 'work: prefer '* | 'work: good' | 'work: boot') begin "${1#work: }" ;;
    'work: done') is_done ;;
    'work: killed') killed=$((killed + 1)) happened=$begun begun='' ;;
    'work: planned '*) is_planned "${1#work: planned }" ;;
    'work: status '*) is_wrong "a session ended with ${1#work: }" ;;
  esac
}

# booted TEXT: the first stage has spent an attempt.
booted() {
  attempts=$((attempts + 1)) planned=${1%% *}
  done_with "${1% tries 1}"
}

# is_up SYSTEM: a system has been started.
is_up() {
  starts=$((starts + 1))
  [ "$1" = "$planned" ] || is_wrong "the plan is of '$planned', and $1 is up"
  [ $starts -le $attempts ] || is_wrong "$starts starts and $attempts attempts"
  planned=''
}

# holds TABLE: what the device holds.
holds() {
  local table=${1% }
  [ -z "$known" ] || [ -n "${may[$table]-}" ] || is_wrong "there is: $table"
  if [ "$happened" = boot ]; then
    count_attempt "$table"
  fi
  now_is "$table"
  known=yes happened='' begun=''
}

is_done() {
  acknowledged=$((acknowledged + 1)) happened=$begun
  done_with
}

# count_attempt TABLE: of a boot by `work`, whether its attempt is spent in this table. A plan that
# is there wants it so.
count_attempt() {
  local old table target
  for old in "${before[@]}"; do
    after_save boot "$old"
    [ "$table" = "$1" ] || continue
    attempts=$((attempts + 1))
    [ -z "$planned" ] || [[ $target == "$planned "* ]] || is_wrong "the plan is of $planned, and $target is spent"
    planned=''
    break
  done
  [ -z "$planned" ] || is_wrong "the plan is of $planned, and no attempt is spent"
  planned=''
  [ $starts -le $attempts ] || is_wrong "$starts starts and $attempts attempts"
}

# is_planned PLACE: a boot by `work` has started a system, as far as a plan goes.
is_planned() {
  starts=$((starts + 1)) planned=system$(($1 - 1))
}

# power_is_lost: what was begun may have been saved or not, and nothing of it was acknowledged. A
# boot may have begun whose line was lost, too.
power_is_lost() {
  [ -z "$begun" ] || interrupted=$((interrupted + 1))
  [ -n "$seen_boot" ] || begin boot
  begun='' seen_boot='' planned='' happened=''
}
