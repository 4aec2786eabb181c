# Definitions and proofs of crates/WHO: what they import, open and read. The store is one with the crates that it is made of (`parts`). Reads .ci/offered, then the specs of crates/channel and
# crates/automaton (what can be opened), then the files of crates/WHO; prints each place that .ci/offered does not allow. A file is read as
# one line of words without comments, so a form may span lines; `;` stands before each declaration, and a projection r.f is `( r .f )`.

function say(what) { print where ": " what }

function last(name) { sub(/^.*(\.|::)/, "", name); return name }

# ---- imports

# whether WHO may import this name of a module (* is the module as a whole)
function allowed(module, name) {
  if ((module, name) in offered || (module, "*") in offered) return 1
  for (sub(/\.\*$/, "", module); sub(/\.[^.]*$/, "", module); ) if ((module ".*", "*") in offered) return 1
  return 0
}

# whether a path of WHO's own is or, with more = 1, leads to a file of limits
function is_limited(path, more, name) {
  for (name in limited) if (index(path ".", name ".") == 1 || (more && index(name ".", path ".") == 1)) return 1
  return 0
}

# a name may be written out where it would be of no matter as an import: where two have the same last word, there is no other way
function spares(name) {
  sub(/^package\./, "", name)
  if (who == "store" || who == "logs" || who == "loads" || name ~ /^Rattle\.(channel|automaton)/) return 0
  return !sub("^Rattle\\.(" parts ")\\.", "", name) || !is_limited(name)
}

# word k is `use`; then the module's path and a list in braces, an alias or nothing
function import(k, path, own, name, passes) {
  passes = word[k - 1] == "pub"
  path = word[++k]
  sub(/^package\./, "", path)
  sub(/\.$/, "", path)
  own = path
  if (sub("^Rattle\\.(" parts ")(\\.|$)", "", own)) {
    if (file in limits) return k
    if (is_limited(own, word[k + 1] != "{")) say("imports " own ", which is for limits")
    else if (word[k + 1] == "{") for (k += 2; k <= count && word[k] != "}"; k++) {
      if (is_limited(own "." word[k])) say("imports " own "." word[k] ", which is for limits")
    }
    return k
  }
  if ((file in limits) || (who != "store" && path !~ /^Rattle\.(channel|automaton)/)) return k
  if (passes) say("passes on names of " path)
  if (word[k + 1] != "{") {
    if (!allowed(path, "*")) say("imports a whole module, " path)
    return k
  }
  for (k += 2; k <= count && word[k] != "}"; k++) {
    if (word[k] == ",") continue
    if (word[k] == "as") { say("gives another name to " name); k++; continue }
    name = word[k]
    if (path ~ /^Rattle\.(channel|automaton)/) imported[file, name] = 1
    if (name in words) brought[file, name] = 1
    if (!allowed(path, name)) say("imports " path "." name ", which is not offered")
  }
  return k
}

# ---- the words of a file

# puts a word at place k, before what stands there
function put_before(k, it, n) { for (n = ++count; n > k; n--) word[n] = word[n - 1]; word[k] = it }

# the fields .f.g that a projection ends in, as words of their own, and the bracket that closes it; then what stands behind them
function fields(it) {
  for (; match(it, /^\.[^].[]+/); it = substr(it, RLENGTH + 1)) word[++count] = substr(it, 1, RLENGTH)
  word[++count] = ")"
  if (it != "") word[++count] = it
}

# a contract names the memories by the parameters of its function, and so does a proof about it, also as they stand in a loop
function memory_of(it) {
  if (it ~ /^registers\.(now|old|new)$/ || it ~ /^(c\.args|(c\.loop[a-z0-9_-]*|l)(\.initial)?)\.registers(\.(now|old|new))?$/) return "rs"
  if (it ~ /^channel\.(now|old|new)$/ || it ~ /^(c\.args|(c\.loop[a-z0-9_-]*|l)(\.initial)?)\.channel(\.(now|old|new))?$/) return "cs"
  return it
}

function words_of(text, part, all, k, it, path) {
  gsub(/[{}(),;]/, " & ", text)
  all = split(text, part, " ")
  count = 0
  for (k = 1; k <= all; k++) {
    it = memory_of(part[k])
    path = part[k - 1] == "use" || it ~ /(^|\.)(Rattle\.|lib\.|mathlib\.)/
    if (!path && it ~ /^\.[a-z0-9_]/ && word[count] == ")") { put_before(before(count) + 1, "("); fields(it) }
    else if (!path && match(it, /[^.]\.[a-z0-9_]/)) { word[++count] = "("; word[++count] = substr(it, 1, RSTART); fields(substr(it, RSTART + 1)) }
    else word[++count] = it
  }
  word[count + 1] = ""
}

# ---- a file

function check(k, end, form) {
  for (k = 1; k <= count; k++) {
    if (word[k] == "use" && (file !~ /\.rt$/ || word[k - 1] == "ghost")) { k = import(k); continue }
    if (file in limits) continue
    if (word[k] ~ /(^|\.)(Rattle\.|lib\.|mathlib\.)/ && !spares(word[k])) say("a name written out, " word[k])
    if (who != "store" && who != "logs" && who != "loads") continue
    if (word[k] == "unfolding" || word[k] == "unfold") {
      end = word[k + 1] == "(" ? ")" : word[k] == "unfold" ? "in" : "="
      for (k++; k <= count && word[k] != end; k++)
        if (last(word[k]) in opens || (file, word[k]) in imported) say("opens the channel's " last(word[k]))
    }
    if (word[k] == "open") say("names the fields of a record by open")
    if (word[k] ~ /\.(sent|flight|held|inbox)$/ && !((file, word[k]) in queue)) say("looks at a queue of the channel, " word[k])
    if (who != "store") continue
    if ((file, word[k]) in brought) {
      form = word[k + 1] == "(" ? "(" word[k + 2] : word[k + 1]
      for (end = k + 3; form ~ /^\(/ && word[end] ~ /^\./; end++) form = form word[end]
      if (!(("*", form) in memory) && !((file, form) in memory)) say("a word of something else than the registers' memory: " word[k] " " form)
    }
    memories(k)
  }
}

FNR == 1 {
  kind = FILENAME ~ /offered$/ ? "offered" : FILENAME ~ ("crates/(" parts ")/") ? "checked" : "opened"
  if (kind == "checked") files[++number] = FILENAME
}
kind == "offered" && NF > 2 {
  for (n = 3; n <= NF; n++) {
    if ($1 == who) offered[$2, $n] = 1
    if ($1 == "store" && $2 ~ /^Rattle\.channel/ && $n != "*") free[$n] = 1
    if ($1 == "memory") memory[$2, $n] = 1
    if ($1 == "queue") queue[$2, $n] = 1
    if ($1 == "limits" && $2 == who) { limits[$n] = 1; sub(/\.antt$/, "", $n); gsub(/\//, ".", $n); limited[$n] = 1 }
  }
}
kind == "offered" && $1 == "words" { for (n = 2; n <= NF; n++) words[$n] = 1 }
kind == "offered" && $1 == "asks" { for (n = 2; n <= NF; n++) asks[$n] = 1 }
kind == "offered" && $1 == "leaves" { for (n = 2; n <= NF; n++) leaves[$n] = 1 }
kind == "opened" && $1 == "unfoldable" { for (n = 2; n <= NF; n++) if ($n != "abbrev" && $n != "pub") { opens[$n] = 1; break } }
kind == "checked" {
  line = plain($0, FILENAME ~ /\.rt$/)
  # a projection stands right at what it is of: apart from it, it could be of all the words before it
  if (FILENAME !~ /\.rt$/ && line ~ /(^|[ ({,;])\.[a-z]/) unread(FILENAME)
  if (FILENAME !~ /\.rt$/ && declares(line, FILENAME ~ /\/specs\//)) line = " ; " line
  text[number] = text[number] " " line
}
END {
  for (n = 1; n <= number; n++) {
    where = file = files[n]
    sub(/^.*crates\//, "", where)
    sub("^.*crates/(" parts ")/", "", file)
    gsub(/«|»/, "", text[n])
    words_of(text[n])
    check()
  }
}
