# A line without its strings and its comment: what a comment or a string says neither hides a violation nor is one. A string over lines is
# left as it is, so that nothing after it is hidden; forms that could hide what follows, in code or in the contracts beside it, are refused.

function unread(what) {
  sub(/^.*crates\//, "", what)
  print what ": a form that this check does not read"
}

function plain(line, code, mark, out) {
  mark = code ? "//" : "(^|[ \t])--([ \t]|$)"
  if (line ~ /\/\*|\{-|⟦|(requires|ensures)[^{]*\{.*\/\/|(^|[^A-Za-z0-9_])b?r#*"/) unread(FILENAME)
  gsub(/'\\?"'/, "' '", line)
  for (out = ""; match(line, "\"|" mark); ) {
    out = out substr(line, 1, RSTART - 1) " "
    line = substr(line, RSTART)
    if (line !~ /^"/) line = ""
    else if (match(line, /^"([^"\\]|\\.)*"/)) line = substr(line, RLENGTH + 1)
    else break
  }
  if (code && (out line) ~ /--/) unread(FILENAME)
  return out line
}
