# The phrases of refused steps. Reads the places where they stand, the first of which the others are held to; prints each number that is wrong,
# and where.

function say(place, what) { print place ": " what }

# the text without blanks at its ends
function trimmed(text) { gsub(/^[ \t]+|[ \t]+$/, "", text); return text }

# a number with its phrase at the place that is read
function note(number, text) {
  if ((FILENAME, number) in phrase) { say(FILENAME, number " stands twice"); return }
  phrase[FILENAME, number] = text
  listed[FILENAME, ++many[FILENAME]] = number
}

# the text between the first two quotation marks
function quoted(line) {
  sub(/^[^"]*"/, "", line)
  sub(/".*/, "", line)
  return line
}

# ---- a table: number, phrase, more

FILENAME ~ /\.md$/ && /^\|/ {
  split($0, cell, "|")
  number = trimmed(cell[2])
  if (number ~ /^[0-9]+$/) note(number, trimmed(cell[3]))
  else if (number !~ /^(No\.|-+)$/) say(FILENAME, "a row without a number: " number)
}

# ---- code: `Refusal::NoTask => b"there is no such task",`; `numbers` is the file in which `NoTask = 12,` stands

BEGIN {
  while ((getline line < numbers) > 0)
    if (line ~ /^ *[A-Za-z]+ = [0-9]+,$/) { split(trimmed(line), word, /[ ,]+/); number_of_name[word[1]] = word[3] }
}

FILENAME ~ /\.rt$/ && !/^ *\/\// && /b"/ {
  name = ""
  if ($0 ~ /^ *Refusal::[A-Za-z]+ => b"[^"]*",$/) { name = $1; sub(/^Refusal::/, "", name) }
  if (name in number_of_name) note(number_of_name[name], quoted($0))
  else if (quoted($0) != "") say(FILENAME, "a phrase without a number: " quoted($0))
}

# ---- definitions: `(12, bytes_of "there is no such task")`, anywhere in a line

FILENAME ~ /\.antt$/ {
  line = $0
  sub(/(^|[ \t])--([ \t].*)?$/, "", line)
  for (; match(line, /\( *[0-9]+ *, *bytes_of +"[^"]*" *\)/); line = substr(line, RSTART + RLENGTH)) {
    pair = substr(line, RSTART, RLENGTH)
    number = pair
    gsub(/^[^0-9]*|,.*/, "", number)
    note(trimmed(number), quoted(pair))
  }
}

# ---- the model: `(12, "there is no such task"),` in its table

FILENAME ~ /\.rs$/ && /^pub const PHRASES/ { table = 1; next }
FILENAME ~ /\.rs$/ && /^\]/ { table = 0 }
FILENAME ~ /\.rs$/ && table {
  if ($0 !~ /^ *\([0-9]+, "[^"]*"\),$/) { say(FILENAME, "a line that this check does not read: " trimmed($0)); next }
  number = $0
  gsub(/^[^0-9]*|,.*/, "", number)
  note(number, quoted($0))
}

END {
  wanted = split("6 10 11 12 13 14 15 20 21 22 23 30 31 32 33 34 35", number_of, " ")
  for (n = 1; n <= wanted; n++) refusal[number_of[n]] = 1
  first = ARGV[1]
  for (p = 1; p < ARGC; p++) {
    place = ARGV[p]
    for (n = 1; n <= wanted; n++) if (!((place, number_of[n]) in phrase)) say(place, number_of[n] " is not there")
    for (n = 1; n <= many[place]; n++) {
      number = listed[place, n]
      text = phrase[place, number]
      if (!(number in refusal)) say(place, number " is no refusal of a step")
      if (text !~ /^[A-Za-z]+( [A-Za-z]+)*$/) say(place, number " has something else than letters and single spaces: \"" text "\"")
      for (k = 1; k < n; k++) if (phrase[place, listed[place, k]] == text) say(place, listed[place, k] " and " number " are alike: \"" text "\"")
      if ((first, number) in phrase && phrase[first, number] != text) say(place, number " is \"" text "\", in " first " \"" phrase[first, number] "\"")
    }
  }
}
