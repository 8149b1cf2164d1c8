# The automaton for Graphviz, after a listing: a point leads to row 0, final rows have a double ring, parallel edges are one arrow.

# Into arrow: the edges in the order of the listing, each with the names of those that are parallel to it.
function join(    edge, ends) {
  for (edge = 1; edge <= edges; edge++) {
    ends = from[edge] " -> " to[edge]
    if (ends in names)
      names[ends] = names[ends] "\\n" name[label[edge]]
    else {
      arrow[++arrows] = ends
      names[ends] = name[label[edge]]
    }
  }
}

END {
  printf "digraph \"%s\" {\n", formula
  if (caption != "")
    printf "  label=\"%s\";\n", caption
  print "  rankdir=LR;"
  print "  node [shape=circle];"
  print "  start [shape=point];"
  print "  start -> 0;"
  for (row = 0; row < rows; row++)
    printf "  %d [label=\"%s\"%s];\n", row, shown[row], (final[row] ? ", shape=doublecircle" : "")
  join()
  for (i = 1; i <= arrows; i++)
    printf "  %s [label=\"%s\"];\n", arrow[i], names[arrow[i]]
  print "}"
}
