# Code above the channel: its memory stands under the name `channel` alone, and is only handed on. Reads .ci/offered, then the code of
# crates/channel (which of its functions take the memory), then the code of the crates above; prints each place that is otherwise. A file is
# read as one line of words, without comments, strings and contracts.

function say(what) { print where ": " what }

function name_in(word) { return word ~ /^[A-Za-z_][A-Za-z0-9_@]*$/ && word !~ /^(mut|return|in|as|else|match|if|while)$/ }

# the place of the bracket that closes the one at k
function closing(k, depth) {
  for (depth = 0; k <= count; k++) {
    if (word[k] ~ /^[([{]$/) depth++
    if (word[k] ~ /^[])}]$/ && --depth == 0) return k
  }
  return count
}

# the words first .. end as one
function joined(first, end, all) {
  for (all = ""; first <= end; first++) all = all word[first]
  return all
}

# splits what stands between the brackets at k into part[1] ..; gives their number
function parts(k, end, n, first) {
  end = closing(k)
  n = 0
  for (first = ++k; k <= end; k++) {
    if (word[k] ~ /^[([{]$/) k = closing(k)
    else if (word[k] == "," || k == end) { if (k > first) { n++; part[n] = joined(first, k - 1); starts[n] = first }; first = k + 1 }
  }
  return n
}

# the place of the bracket that opens the arguments of the function at k; its type parameters stand before it, where .ci/offered lists them
function opening(k) {
  if (word[k + 2] == "<" && (crate, word[k + 1]) in generic) while (k < count && word[k + 2] != ">") k++
  return word[k + 2] == ">" ? k + 3 : k + 2
}

# notes which arguments of a crate's functions are the channel's memory: `memory` in the channel's own, `channel` above; of a method, whose name
# is noted with a point, without the value that it is of; and which functions of another crate it passes on as its own
function functions(k, n, own, name, head) {
  for (k = 1; k <= count; k++) if (word[k] == "pub" && word[k + 1] == "use") {
    name = head = word[k + 2]
    sub(/^.*@/, "", name)
    sub(/@.*/, "", head)
    passed[crate, name] = head
  } else if (word[k] == "fn") {
    n = word[opening(k)] == "(" ? parts(opening(k)) : 0
    own = n > 0 && part[1] ~ /^(&(\047[a-z]+)?)?(mut)?self$/
    name = (own ? "." : "") word[k + 1]
    known[crate, name]++
    for (; n > own; n--) if (index(part[n], (crate == "channel" ? "memory" : "channel") ":") == 1) takes[crate, name, n - own]++
  }
}

# the crate of the function that is called so in this file; nothing for one that is not known
function crate_of(call, head) {
  if (call !~ /@/) { if (!((where, call) in brought)) return crate; call = brought[where, call] }
  head = call
  sub(/@.*/, "", head)
  if (head == "super" || head == "crate" || head == "self" || (where, "mod", head) in brought) return crate
  return head
}

function calls(k, home, name, n, many, is) {
  name = word[k]
  if (word[k - 1] == ".") { home = crate; name = "." name }
  else {
    home = crate_of(name)
    sub(/^.*@/, "", name)
    if (!((home, name) in known) && (home, name) in passed) home = passed[home, name]
  }
  many = parts(k + 1)
  for (n = 1; n <= many; n++) {
    is = part[n] ~ /^(&|&mut)?channel$/
    if (is && !((home, name, n) in takes)) say("hands the channel's memory to " word[k])
    if (!is && (home, name, n) in takes && takes[home, name, n] == known[home, name])
      say("the channel's memory under another name, for " word[k] ": " part[n])
    if (is) word[starts[n] + (part[n] ~ /^&mut/ ? 2 : part[n] ~ /^&/)] = "handed"
  }
}

# a struct may have the memory by reference, in a field of that name, and is made with it
function fields_of(k, n) {
  if (word[k] == "struct" && word[k + 2] == "<") for (n = k; n < count && word[n + 2] != "{"; n++) ;
  else n = k
  if (word[n + 2] != "{") return
  holder[where, word[k + 1]] = 0
  for (n = parts(n + 2); n > 0; n--) if (part[n] ~ /^channel:&\047[a-z]+\[u32;channel@WORDS\]$/) {
    holder[where, word[k + 1]] = 1
    word[starts[n]] = "handed"
    word[closing(starts[n] + 4) - 1] = "#words"
  }
}

function check(k, n, many, form) {
  for (k = 1; k <= count; k++) if (word[k] == "struct") fields_of(k)
  for (k = 1; k <= count; k++) {
    if (holder[where, word[k]] && word[k + 1] == "{" && word[k - 1] != "struct" && word[k - 1] != "for")
      for (n = parts(k + 1); n > 0; n--) if (part[n] == "channel") word[starts[n]] = "handed"
    if (word[k] == "use") {
      if (word[k + 2] != ";") say("a form that this check does not read: use " word[k + 1] " " word[k + 2])
      k++
    } else if (word[k] == "fn") {
      if (word[opening(k)] != "(") { say("a form that this check does not read: fn " word[k + 1] " " word[k + 2]); k++; continue }
      for (n = parts(opening(k)); n > 0; n--) if (part[n] ~ /^channel:&(mut)?\[u32;channel@WORDS\]$/) {
        word[starts[n]] = "handed"
        word[closing(starts[n] + (part[n] ~ /&mut/ ? 4 : 3)) - 1] = "#words"
      }
      k++
    } else if (word[k] == "channel" && (crate in makes) && joined(k - 2, k + 7) == "letmutchannel=[0u32;channel@WORDS];") word[k] = "handed"
    else if (name_in(word[k]) && word[k + 1] == "(") calls(k)
    else if (word[k] == "[" && word[k - 1] != "#" && !(word[k - 1] == "!" && word[k - 2] == "#") && word[k - 1] !~ /^[])]$/ && !name_in(word[k - 1])) {
      form = joined(k, closing(k))
      if (form ~ /^\[([0-9]|,+\]$)/ || form == "[u32;#words]" || parts(k) > 1 || (crate, form) in types) continue
      say("a type that is not listed: " form)
    }
  }
  for (k = 1; k <= count; k++)
    if (word[k] == "channel") say("does more with the channel's memory than hand it on: " word[k - 1] " channel " word[k + 1])
}

FNR == 1 && FILENAME !~ /offered$/ { files[++number] = FILENAME }
FILENAME ~ /offered$/ && $1 == "types" { for (n = 3; n <= NF; n++) types[$2, $n] = 1 }
FILENAME ~ /offered$/ && $1 == "generic" { for (n = 3; n <= NF; n++) generic[$2, $n] = 1 }
FILENAME ~ /offered$/ && $1 == "makes" { for (n = 2; n <= NF; n++) makes[$n] = 1 }
FILENAME !~ /offered$/ { text[number] = text[number] " " plain($0, 1) }

# the bracket that opens the clause of a contract at k, behind a star and a name if it has them
function clause(raw, k) {
  if (raw[++k] == "*") k++
  if (raw[k] ~ /^[a-z_][a-z0-9_]*$/) k++
  return raw[k] == "{" ? k : 0
}

# the end of an import of single names, `use a::{b, c};`
function listed(raw, k) {
  if (raw[k + 1] !~ /@$/ || raw[k + 2] != "{") return 0
  for (k += 3; raw[k] ~ /^[A-Za-z_][A-Za-z0-9_]*$/ && raw[k] != "self" && raw[k + 1] ~ /^[,}]$/; k++) {
    if (raw[++k] == "}") break
    if (raw[k + 1] == "}") { k++; break }
  }
  return raw[k] == "}" && raw[k + 1] == ";" ? k + 1 : 0
}

# the words of file n, without contracts, which stand between the head of a function and its body, and without ghost imports; a path is one
# word, with @ for ::, and an import of several names one for each
function read(n, all, raw, k, depth, head, end, path) {
  where = files[n]
  sub(/^.*crates\//, "", where)
  crate = where
  sub(/\/.*/, "", crate)
  all = text[n]
  gsub(/::/, "@", all)
  gsub(/[][(){},;:&*.=<>!|+%\/#-]/, " & ", all)
  all = split(all, raw, " ")
  count = head = 0
  for (k = 1; k <= all; k++) {
    if (raw[k] == "fn") head = 1
    else if (head && raw[k] ~ /^[([]$/) head++
    else if (head && raw[k] ~ /^[])]$/) head--
    if (raw[k] == "ghost" && raw[k + 1] == "use") while (k < all && raw[k] != ";") k++
    else if (raw[k] == "ghost" && raw[k + 1] ~ /^[a-z_]+$/ && raw[k + 2] ~ /^[:=]$/ && raw[k + 3] == "{") {
      for (k += 3; k < all && raw[k] != "}"; k++) ;
    }
    else if (head == 1 && (raw[k] == "requires" || raw[k] == "ensures") && clause(raw, k)) {
      k = clause(raw, k)
      for (depth = 1; k < all && depth > 0; ) { k++; depth += (raw[k] == "{") - (raw[k] == "}") }
    } else if (raw[k] == "use" && (end = listed(raw, k))) {
      path = raw[k + 1]
      for (depth = k + 3; depth < end; depth += 2) {
        if (depth > k + 3 && raw[k - 1] == "pub") word[++count] = "pub"
        if (raw[depth] ~ /^[A-Za-z_]/) { word[++count] = "use"; word[++count] = path raw[depth]; word[++count] = ";" }
      }
      k = end
    } else {
      if (head == 1 && raw[k] ~ /^[{;]$/) head = 0
      word[++count] = raw[k]
    }
  }
  word[count + 1] = ""
}

END {
  for (n = 1; n <= number; n++) { read(n); functions() }
  for (n = 1; n <= number; n++) {
    read(n)
    if (crate == "channel") continue
    for (k = 1; k <= count; k++) {
      if (word[k] == "mod") brought[where, "mod", word[k + 1]] = 1
      if (word[k] == "use") { name = word[k + 1]; sub(/^.*@/, "", name); brought[where, name] = word[k + 1] }
    }
    check()
  }
}
