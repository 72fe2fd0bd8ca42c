# shellcheck shell=bash disable=SC2154
# What ./bbx and ./build-for know of the libraries that the program stands on. `root` is the
# checkout, and `kit` the toolchain's folder, once words for the compiler are asked for.

# The names after a crate's name in crates.txt.
stands_on() {
  sed -n "s/^$1\( [^:]*\)\{0,1\}: *//p" "$root/crates.txt"
}

# The program's crates in the order in which they are built, each after those that it stands on.
crates_in_order() {
  awk -F: '
    function visit(name, names, count, i) {
      if (!(name in below) || name in seen) return
      seen[name] = 1
      count = split(below[name], names, " ")
      for (i = 1; i <= count; i++) visit(names[i])
      print name
    }
    !/^#/ { split($1, words, " "); below[words[1]] = $2 }
    END { visit("bbx") }' "$root/crates.txt"
}

# sources_newer_than FILE: the first source, or the list of crates, that is newer than this file.
sources_newer_than() {
  find "$root/crates" "$root/crates.txt" -path '*/out' -prune -o \
    \( -name '*.rt' -o -name '*.antt' -o -name crates.txt \) -newer "$1" -print -quit
}

# Whether each library below the program is there, and no source is newer. Only what is proved is
# built. So it is after `rt ci`, whose libraries `rt lib` and `rt check` would prove once more.
libraries_are_current() {
  local name library
  for name in $(crates_in_order); do
    [ "$name" != bbx ] || continue
    library=$root/crates/$name/out/rlib/$name.rlib
    [ -e "$library" ] && [ -z "$(sources_newer_than "$library")" ] || return
  done
}

# What the compiler is told: the program's name and file, the libraries that it names, where those
# below them are, and what the logic is checked by. It keeps its work in out/ of the program.
program_words() {
  local name folder
  printf '%s\n' --crate-name bbx src/main.rt
  for name in std $(stands_on bbx); do
    folder=$root/crates/$name/out/rlib
    [ -d "$root/crates/$name" ] || folder=$kit/rlibs
    printf '%s\n' --extern "$name=$folder/$name.rlib"
  done
  for folder in "$kit/rlibs" "$root"/crates/*/out/rlib; do
    printf '%s\n' -L "dependency=$folder"
  done
  printf '%s\n' --antt-project "$kit/rattle/logic/antt-project.json" --logic-built "$kit/logic_built" --incremental out/incremental
}
