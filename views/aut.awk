# The automaton in the Aldebaran format, after a listing: final rows have a loop (final).

# CADP takes i, and mCRL2 tau, for the internal step. A label of that name is an event like any other.
function word(label) {
  return name[label] == "i" || name[label] == "tau" ? "(" name[label] ")" : name[label]
}

END {
  for (row = 0; row < rows; row++)
    finals += final[row]
  printf "des (0,%d,%d)\n", edges + finals, rows
  for (edge = 1; edge <= edges; edge++)
    printf "(%d,\"%s\",%d)\n", from[edge], word(label[edge]), to[edge]
  for (row = 0; row < rows; row++)
    if (final[row])
      printf "(%d,\"(final)\",%d)\n", row, row
}
