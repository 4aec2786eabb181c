# Where must-fail edits lie and where documents name them. Reads the names of the crates, the tree (a line for each file: its type, its path),
# docs/DECISIONS.md and docs/CONTRACTS.md; prints each place that is wrong.

function say(what) { print what }

# the text without blanks at its ends
function trimmed(text) { gsub(/^[ \t]+|[ \t]+$/, "", text); return text }

function place(crate, edit) { return "crates/" crate "/must-fail/" edit ".edit" }

# the names between backticks, as name[1] ..; gives their number
function names(text, n) {
  for (n = 0; match(text, /`[^`]*`/); text = substr(text, RSTART + RLENGTH)) name[++n] = substr(text, RSTART + 1, RLENGTH - 2)
  return n
}

FNR == 1 { number++ }

number == 1 && NF == 1 { listed[$1] = 1 }

# ---- the tree: crates/NAME/must-fail/EDIT.edit, and nothing that could be meant so

number == 2 {
  path = substr($0, 3)
  depth = split(path, part, "/")
  last = tolower(part[depth])
  letters = last
  gsub(/[^a-z]/, "", letters)
  within = part[1] == "crates" && part[3] == "must-fail"
  if (within && depth == 3 && $1 == "d") { if (!(part[2] in listed)) say(path ": a crate that crates.txt does not list") }
  else if (within && depth == 4) {
    if ($1 == "f" && part[4] ~ /^[a-z0-9_]+\.edit$/) { edit = part[4]; sub(/\.edit$/, "", edit); edits[part[2], edit] = 1 }
    else say(path ": not the name of an edit, or not a file")
  } else if (last ~ /\.edit$/) say(path ": an edit that is not in crates/NAME/must-fail")
  else if (($1 == "d" && letters ~ /must|fail/) || letters == "mustfail") say(path ": looks like must-fail, and is not crates/NAME/must-fail")
}

# ---- DECISIONS, "Edits that must fail": the crate in the first cell, or nothing for the crate of the row above; in the second its edits, parted
# by semicolons where something is said of them after a colon

number == 3 && /^## / { table = $0 ~ /^## Edits that must fail/ }
number == 3 && table && /^\|/ && !/^\|[-| ]*$/ {
  split($0, cell, "|")
  if (trimmed(cell[2]) == "Crate") { decided = 1; next }
  if (trimmed(cell[2]) != "") crate = trimmed(cell[2])
  if (!(crate in listed)) { say("docs/DECISIONS.md: no crate " crate); next }
  for (n = split(cell[3], part, ";"); n > 0; n--) {
    sub(/:.*/, "", part[n])
    for (k = names(part[n]); k > 0; k--) {
      said[crate, name[k]] = 1
      if (!((crate, name[k]) in edits)) say("docs/DECISIONS.md: names a place without an edit: " place(crate, name[k]))
    }
  }
}

# ---- CONTRACTS: in a column "Edit", edits of the section's own crates, or of the crate that is written before them

number == 4 && /^## / {
  owners = 0
  for (n = 2; n <= NF; n++) if ($n in listed) owner[++owners] = $n
}
number == 4 && !/^\|/ { column = 0 }
number == 4 && /^\|/ {
  cells = split($0, cell, "|")
  for (n = 1; n <= cells; n++) if (trimmed(cell[n]) == "Edit") { column = n; contracted = 1; next }
  if (!column || /^\|[-| ]*$/ || trimmed(cell[column]) == "") next
  for (n = split(cell[column], part, ";"); n > 0; n--) {
    if (!(many = names(part[n]))) { say("docs/CONTRACTS.md: names no edit: " trimmed(part[n])); continue }
    before = part[n]
    sub(/`.*/, "", before)
    words = split(before, word, /[ :]+/)
    crate = ""
    for (k = 1; k <= words; k++) if (word[k] != "") crate = word[k]
    if (crate != "" && !(crate in listed)) { say("docs/CONTRACTS.md: no crate " crate); continue }
    for (; many > 0; many--) {
      found = 0
      if (crate != "") found = (crate, name[many]) in edits
      else for (k = 1; k <= owners; k++) if ((owner[k], name[many]) in edits) found = 1
      if (!found) say("docs/CONTRACTS.md: names a place without an edit: " place(crate != "" ? crate : owner[1], name[many]))
    }
  }
}

END {
  if (!decided) say("docs/DECISIONS.md: no table of edits that must fail")
  if (!contracted) say("docs/CONTRACTS.md: no table with a column of edits")
  if (decided) for (pair in edits) if (!(pair in said)) { split(pair, part, SUBSEP); say("docs/DECISIONS.md: does not name " place(part[1], part[2])) }
}
