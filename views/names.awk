# What every view is made from, read from table.txt and formula.txt, the first two files:
#   formula
#   name[label]
# A third file is the listing, which listing.awk or smallest.awk reads:
#   rows, edges
#   shown[row], final[row], for rows 0 to rows - 1: what a picture says of a row, and whether it is final
#   from[edge], label[edge], to[edge], for edges 1 to edges, row by row and by rising label in each
#   caption: what the words are; empty if the listing does not tell
BEGIN {
  name[0] = "(silent)"
  name[99] = "(idle)"
}

FNR == 1 { file++ }

file == 1 && FNR == 1 { labels = $2 }
file == 1 && FNR > 1 && FNR <= 1 + labels { name[$1] = $2 }

file == 2 { formula = $0 }

file == 3 && FNR > 1 + rows {
  edge = FNR - 1 - rows
  from[edge] = $1
  label[edge] = $2
  to[edge] = $3
}
