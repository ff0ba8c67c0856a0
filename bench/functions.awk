# Instructions of each function's own code in one part of callgrind's output, the most first.
function id(text) { return substr(text, index(text, "("), index(text, ")") - index(text, "(") + 1) }
function keep(text) { if (index(text, ") ")) name[id(text)] = substr(text, index(text, ") ") + 2) }
/^c?fn=/ { keep($0) }
/^fn=/ { at = id($0) }
/^summary:/ { total = $2 }
# The line after a call has what was called, which stands under its own function.
/^calls=/ { getline; next }
/^[-+*0-9]/ { own[at] += $2 }
END {
  for (at in own)
    if (own[at] >= total / 100)
      printf "%10d %5.1f%%  %s\n", own[at], 100 * own[at] / total, name[at] | "sort -rn"
}
