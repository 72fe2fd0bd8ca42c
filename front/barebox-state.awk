# Prints the dump of a state for barebox-state(1), with several states or with types.
#
# The input is the bytes of the devicetree's blob as decimal numbers, or none where no types are
# wanted; then a line `=`; and then what `bbx .. state --dump-shell -d` prints. The lines for a
# shell say where each variable of the dump ends, since in them the end of a value can be told.
# PREFIX comes in front of each name, NAME is the state's name of -n or empty, and TYPES is empty
# where no types are wanted. The status is 1 where blob and text don't fit together.

# A number of 32 bits, big endian, as the blob has them.
function number_at(at) {
  return ((byte[at] * 256 + byte[at + 1]) * 256 + byte[at + 2]) * 256 + byte[at + 3]
}

function text_at(at,  text) {
  for (text = ""; byte[at] > 0; at++) text = text sprintf("%c", byte[at])
  return text
}

# The strings of a value, a comma in front of each.
function strings_in(at, end,  all, one) {
  for (all = ""; at < end; at += length(one) + 1) {
    one = text_at(at)
    all = all "," one
  }
  return all
}

function up_to_at(text) {
  sub(/@.*/, "", text)
  return text
}

function take_property(node, key, at, end) {
  if (path[node] == "/aliases" && key == called && alias == "") alias = text_at(at)
  if (key == "compatible") is_state[node] = ("," strings_in(at, end) ",") ~ /,barebox,state,/
  if (key == "type" && !(node in type)) type[node] = text_at(at)
  if (key == "names" && !(node in names)) names[node] = substr(strings_in(at, end), 2)
}

# The nodes in preorder, from 1 on: their paths, levels and what is needed of their properties.
function read_blob(  at, token, size, level) {
  for (at = number_at(8); at < count && (token = number_at(at)) != 9; ) {
    at += 4
    if (token == 1) {
      open[++level] = ++nodes
      own[nodes] = text_at(at)
      path[nodes] = level == 1 ? "" : path[open[level - 1]] "/" own[nodes]
      depth[nodes] = level
      at += length(own[nodes]) + 4 - length(own[nodes]) % 4
    } else if (token == 2) level--
    else if (token == 3) {
      size = number_at(at)
      take_property(open[level], text_at(number_at(12) + number_at(at + 4)), at + 8, at + 8 + size)
      at += 8 + size + (4 - size % 4) % 4
    }
  }
}

# The state node: that of the alias, or the first one, which has the name of -n where there is one.
function state_node(  i) {
  for (i = 1; i <= nodes; i++)
    if (is_state[i] && (path[i] == "" ? "/" : path[i]) == alias) return i
  for (i = 1; i <= nodes; i++)
    if (is_state[i] && (ENVIRON["NAME"] == "" || up_to_at(own[i]) == called)) break
  called = up_to_at(own[i])
  return i
}

# The types of its variables, in their order. What is inside a variable is none.
function read_types(  top, i, inside) {
  top = state_node()
  for (i = top + 1; i <= nodes && depth[i] > depth[top]; i++) {
    if (inside && depth[i] > inside) continue
    inside = 0
    if (!(i in type)) continue
    inside = depth[i]
    types[++typed] = ", type=" type[i] (type[i] == "enum32" ? ", values=[" names[i] "]" : "")
  }
}

# Takes the first line for a shell off the text, and notes how long its name and its value are.
function take_line(  at, quote) {
  at = index(text, "=\"")
  name_length[++variables] = at - 1 - length(called) - 1
  for (quote = at + 2; substr(text, quote, 1) != "\""; quote++) {
    if (substr(text, quote, 1) == "\\") quote++
    value_length[variables]++
  }
  dump_length += name_length[variables] + 1 + value_length[variables] + 1
  text = substr(text, quote + 2)
}

function print_dump(  i, size) {
  while (length(text) > dump_length) take_line()
  if (length(text) < dump_length || (ENVIRON["TYPES"] != "" && typed != variables)) exit 1
  for (i = 1; i <= variables; i++) {
    size = name_length[i] + 1 + value_length[i]
    printf "%s%s%s\n", ENVIRON["PREFIX"], substr(text, 1, size), types[i]
    text = substr(text, size + 2)
  }
}

BEGIN { called = ENVIRON["NAME"] == "" ? "state" : ENVIRON["NAME"] }
is_text { text = text $0 "\n"; next }
$0 == "=" { is_text = 1; next }
{ for (i = 1; i <= NF; i++) byte[count++] = $i + 0 }
END {
  if (count) {
    read_blob()
    read_types()
  }
  print_dump()
}
