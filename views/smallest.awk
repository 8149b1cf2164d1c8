# The listing of the smallest deterministic automaton, after names.awk: its states are the rows. Whether the words are witnesses or counterexamples it does not tell.
file == 3 && FNR == 1 {
  rows = $1
  edges = $2
}
file == 3 && FNR > 1 && FNR <= 1 + rows {
  shown[$1] = $1
  final[$1] = $2
}
