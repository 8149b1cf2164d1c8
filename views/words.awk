# The accepted words, shortest first and by rising labels from the left, after a listing: as many as wanted, and a line that says whether there are more.
# Each length is searched depth first. Only rows are followed from which a final one is that many steps away, so no branch is in vain.

# The edges of each row: from first[row] to before first[row + 1].
function index_edges(    edge, row) {
  edge = 1
  for (row = 0; row <= rows; row++) {
    first[row] = edge
    while (edge <= edges && from[edge] == row)
      edge++
  }
}

# From every row a final one can be reached: there are infinitely many words exactly if rows lie on a cycle. Rows that no row left over leads to are taken away.
function has_cycle(    edge, row, taken) {
  for (edge = 1; edge <= edges; edge++)
    entering[to[edge]]++
  for (row = 0; row < rows; row++)
    if (!entering[row])
      free[++count] = row
  while (taken < count) {
    row = free[++taken]
    for (edge = first[row]; edge < first[row + 1]; edge++)
      if (--entering[to[edge]] == 0)
        free[++count] = to[edge]
  }
  return taken < rows
}

# ends[n, row]: a final row is n steps away. Those of n, from those of n - 1.
function find_ends(n,    edge, row) {
  if (n == 0)
    for (row = 0; row < rows; row++)
      if (final[row])
        ends[0, row] = 1
  for (edge = 1; edge <= edges; edge++)
    if ((n - 1, to[edge]) in ends)
      ends[n, from[edge]] = 1
}

# The lowest label above one by which the rows at a depth lead to rows that are n steps from a final one; -1 if there is none.
function next_label(depth, above, n,    i, row, edge, least) {
  least = -1
  for (i = 1; i <= size[depth]; i++) {
    row = reached[depth, i]
    for (edge = first[row]; edge < first[row + 1]; edge++)
      if (label[edge] > above && (least < 0 || label[edge] < least) && (n, to[edge]) in ends)
        least = label[edge]
  }
  return least
}

# The rows one deeper, by a label.
function follow(depth, letter, n,    i, row, edge, target) {
  visit++
  size[depth + 1] = 0
  for (i = 1; i <= size[depth]; i++) {
    row = reached[depth, i]
    for (edge = first[row]; edge < first[row + 1]; edge++) {
      target = to[edge]
      if (label[edge] == letter && (n, target) in ends && visited[target] != visit) {
        visited[target] = visit
        reached[depth + 1, ++size[depth + 1]] = target
      }
    }
  }
}

function show(n,    i) {
  if (n == 0)
    print "(empty)"
  for (i = 1; i <= n; i++)
    printf "%s%s", name[letter[i]], (i < n ? " " : "\n")
}

# The words of length n, until enough are found.
function search(n,    depth) {
  depth = 0
  size[0] = 1
  reached[0, 1] = 0
  letter[1] = -1
  while (depth >= 0 && found < enough)
    if (depth == n) {
      if (++found <= wanted)
        show(n)
      depth--
    } else {
      letter[depth + 1] = next_label(depth, letter[depth + 1], n - depth - 1)
      if (letter[depth + 1] < 0)
        depth--
      else {
        follow(depth, letter[depth + 1], n - depth - 1)
        letter[++depth + 1] = -1
      }
    }
}

END {
  index_edges()
  infinite = has_cycle()
  enough = infinite ? wanted : wanted + 1
  for (n = 0; found < enough && (infinite || n < rows); n++) {
    find_ends(n)
    if ((n, 0) in ends)
      search(n)
  }
  if (infinite)
    print "(infinitely many more)"
  else
    print (found > wanted ? "(more)" : "(no more)")
}
