# The listing of a folder, after names.awk.
function witnesses(verdict, class) {
  if (class == 1)
    return verdict ? "holds: all witnesses" : "does not hold: no word is a witness"
  return verdict ? "holds: no word is a counterexample" : "does not hold: all counterexamples"
}

file == 3 && FNR == 1 {
  caption = witnesses($1, $2)
  rows = $3
  edges = $4
}
file == 3 && FNR > 1 && FNR <= 1 + rows {
  shown[$1] = "state " $3 "\\nplace " $2
  final[$1] = $4
}
