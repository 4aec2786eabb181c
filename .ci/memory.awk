# The channel's memory in definitions and contracts of the store: it is handed on under the names cs and ds, and to what calls it so. With
# layers.awk, which has split a file into word[1 .. count].

# the place in front of the group that ends at k
function before(k, depth) {
  for (depth = 0; k > 0; k--) {
    if (word[k] == ")" || word[k] == "}") depth++
    if ((word[k] == "(" || word[k] == "{") && --depth == 0) return k - 1
  }
  return 0
}

function left(k) { return word[k] == ")" ? before(k) : k - 1 }

function stops(k) { return k < 1 || (word[k] in stop) || word[k] ~ /\.$/ }

# the definition that word k belongs to gives the channel's memory back: only those that are listed may
function gives(k, end) {
  for (end = k; k > 1 && word[k - 1] != ";"; k--) {}
  if (!(word[k] in leaves)) say("gives the channel's memory back: " word[k] " .. " word[end])
}

# Words first .. end are the channel's memory: it is the argument of something that the channel offers, or of a definition of the store that
# calls it so at that place too; or it is compared, or the field `channel` of an outcome.
function handed(first, end, at, place, head, right) {
  place = 0
  for (at = first - 1; !stops(at); place++) at = left(at)
  for (right = end + 1; right <= count && !stops(right) && word[right] != ")"; right++) {}
  if (word[at] == "(" && word[right] == ":") return  # a binder
  head = word[at + 1]
  # a proof may cite its memories as it likes, but for the definitions
  if (file ~ /^proofs\// && !(place > 0 && (head, place) in called)) return
  if (place == 0 && (word[end + 1] == "≡" || word[at] == "≡" || (word[at] == "=" && word[at - 1] == "channel"))) return
  if (place > 1 && head == "cond") { gives(at); return }
  if (place > 0 && ((head in free) || called[head, place] ~ /^(cs|ds|w)$/)) return
  say("does more with the channel's memory than hand it on: " (place ? head : word[at]) " .. " word[end])
}

# word k may be the channel's memory, or end it
function memories(k, first) {
  if (word[k] == "cs" || word[k] == "ds") handed(k, k)
  if (word[k] == ".channel" && word[k + 1] == ")") handed(before(k + 1) + 1, k + 1)
  else if (word[k] == ".channel" && word[k + 1] !~ /^\./) {
    for (first = k; !stops(first - 1); ) first = left(first - 1) + 1
    handed(first, k)
  }
  if (word[k] == ")" && word[before(k) + 2] in leaves) handed(before(k) + 1, k)
  if ((word[k] in asks) && word[k - 1] !~ /^(mod|fn)$/ && word[k + 1] !~ /^(cs|ds)$/)
    if (word[k + 1] != "(" || !(word[k + 2] in leaves || word[k + 3] word[k + 4] == ".channel)"))
      say("the channel's memory under another name: " word[k] " " word[k + 1])
  if (file !~ /^proofs\// && (word[k] in leaves) && word[k - 1] == "=" && word[k - 2] != "channel") gives(k)
}

# Notes what a definition calls its arguments, from a clause `name x y .. =` or a header `record Name (x y : T) ..`; whether the line starts
# a declaration. In a module with parameters the same definition takes these first when it is named from outside.
function declares(line, note, header, n, k, part, place, calls, depth, naming) {
  if (line ~ /^[^ ]/) shift = 0
  header = sub(/^ *(pub )?(record|data|module) /, "", line)
  gsub(/[{}()]/, " & ", line)
  n = split(line, part, " ")
  if (part[2] == ":" || part[1] ~ /^(pub|abbrev|unfoldable|use|unfolding)$/) return 1
  for (k = 2; k <= n && !(depth < 1 && (header ? part[k] == ":" || part[k] == "where" : part[k] == "=")); k++) {
    if (part[k] == ")" || part[k] == "}") depth--
    else if (part[k] == "(" || part[k] == "{") { if (depth++ < 1 && !header && part[k] == "(") calls[++place] = "("; naming = header }
    else if (part[k] == ":") naming = 0
    else if (depth < 1 || naming) calls[++place] = part[k]
  }
  if (k > n || !note) return header || k <= n
  if (part[1] == "_") shift = place
  for (k = 1; k <= place; k++) { call(part[1], k, calls[k]); if (shift) call(part[1], k + shift, calls[k]) }
  return 1
}

function call(name, place, it) {
  if (!((name, place) in called)) called[name, place] = it
  else if (called[name, place] != it) called[name, place] = called[name, place] " and " it
}

BEGIN {
  count = split("( { = → : ≡ ≢ && || × + - * % / ^ < ≤ ++ ∷ ∙ , ; λ ⌜ in let where record", word, " ")
  while (count) stop[word[count--]] = 1
  free["length"] = 1
}
