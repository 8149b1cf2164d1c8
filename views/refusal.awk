# A refusal in words, from its number and figure, from the table's name in the environment (for 1 to 4), and from the listed states in columns (16). Input: the bytes of the table (for 1 to
# 4, and 16) or of formula.txt (6, 7), as od -An -v -tu1 prints them.

BEGIN {
  table = ENVIRON["table"]
  bytes = 0
  for (code = 32; code < 127; code++)
    shown[code] = sprintf("%c", code)
  shown[9] = "\\t"
  shown[10] = "\\n"
  shown[13] = "\\r"
}

{
  for (i = 1; i <= NF; i++)
    byte[bytes++] = $i
}

# The bytes from start to before end, each that is not printable by its code.
function text(start, end,    i, all) {
  for (i = start; i < end; i++)
    all = all (byte[i] in shown ? shown[byte[i]] : sprintf("\\x%02x", byte[i]))
  return all
}

# Line k is the bytes from begin[k] to before end[k], where its LF stands.
function cut_lines(    i) {
  begin[lines = 1] = 0
  for (i = 0; i < bytes; i++)
    if (byte[i] == 10) {
      end[lines] = i
      begin[++lines] = i + 1
    }
  end[lines] = bytes
}

# At most 60 bytes of a line: no line of a table has more than 24.
function line(k) {
  return "\"" (end[k] - begin[k] > 60 ? text(begin[k], begin[k] + 60) "\"..." : text(begin[k], end[k]) "\"")
}

# What stands on line k: the counts, a label, a transition, or nothing any more. Where k is not 1, line 1 was accepted.
function part_of(k,    counts) {
  if (k == 1)
    return "counts"
  split(text(begin[1], end[1]), counts, " ")
  states = counts[1]
  labels = counts[2]
  return k <= 1 + labels ? "label" : k <= 1 + labels + counts[3] ? "transition" : "nothing"
}

function layout(part) {
  if (part == "counts")
    return "the counts of states, labels and transitions and the start state, each right-justified in six columns"
  if (part == "label")
    return "a label's number right-justified in six columns, a blank, and a name: a to z, up to 11 more of a to z, 0 to 9 and _, and at most one mark, ? or !"
  return "a transition's state, label and state, each right-justified in six columns"
}

function ranges(part, k) {
  if (part == "counts")
    return "1 to 256 states, 0 to 40 labels, 0 to 1024 transitions, a start state below the count of states"
  if (part == "label")
    return "labels are numbered in turn, this one " k - 1
  return "states are below " states ", labels at most " labels
}

function table_refused(k,    part, earlier) {
  cut_lines()
  part = part_of(k)
  if (number == 1 && part == "nothing")
    say(table " has bytes after its last line, from line " k " on", line(k))
  else if (number == 1 && begin[k] == bytes)
    say(table " ends before line " k, "expected: " layout(part))
  else if (number == 1)
    say(table ", line " k " is not as laid out" (k == lines ? ", or no LF ends it" : ""), line(k), "expected: " layout(part))
  else if (number == 2)
    say(table ", line " k ": a number is outside its range or turn", line(k), "expected: " ranges(part, k))
  else if (number == 3) {
    for (earlier = 2; earlier < k && text(begin[earlier] + 7, end[earlier]) != text(begin[k] + 7, end[k]); )
      earlier++
    say(table ", line " k ": the name is used already, on line " earlier, line(k))
  } else
    say(table ", line " k ": the transition is not above the one before", line(k - 1), line(k))
}

function formula_refused(offset,    ends, blanks) {
  ends = bytes && byte[bytes - 1] == 10 ? bytes - 1 : bytes
  blanks = text(0, offset)
  gsub(/./, " ", blanks)
  if (number == 7)
    say("formula.txt, offset " offset ": the table has no label of this name", text(0, ends), blanks "^")
  else if (offset == ends)
    say("formula.txt ends where more must follow, at offset " offset, text(0, ends), blanks "^")
  else
    say("formula.txt, offset " offset ": no formula goes on like this", text(0, ends), blanks "^")
}

# The entry of the list, counted from 0.
function state(k) {
  return substr(starts, 6 * k + 1, 6) + 0
}

# The table begins with the count of its states, in six columns.
function start_refused(k) {
  if (state(k) >= text(0, 6) + 0)
    say("entry " k " of the list, counted from 0: the table has no state " state(k))
  else
    say("entry " k " of the list, counted from 0: state " state(k) " is not above the one before, state " state(k - 1))
}

function say(words, shown_first, shown_second) {
  print "explain: refused (" number "): " words
  if (shown_first != "" || shown_second != "")
    print "    " shown_first
  if (shown_second != "")
    print "    " shown_second
}

END {
  if (number <= 4)
    table_refused(figure + 0)
  else if (number == 5)
    say("formula.txt has " figure " bytes; a formula has at most 512")
  else if (number <= 7)
    formula_refused(figure + 0)
  else if (number == 8)
    say("the formula has " figure " nodes, its short forms written out; at most 40 are taken")
  else if (number == 9)
    say("node " figure " of the formula, counted from 0 and its short forms written out, has no class: an arm has not the class that it needs")
  else if (number == 11)
    say("the automaton has " figure " rows; the program has places for 1024")
  else if (number == 12)
    say("the automaton has " figure " edges; the program has places for 4096")
  else if (number == 15)
    say("the text written back has " figure " bytes, more than 512")
  else if (number == 16)
    start_refused(figure + 0)
  else if (number == 17)
    say("the combined table has " figure " states, one for each pair; at most 256 are taken")
  else if (number == 18)
    say("the combined table has " figure " labels; at most 40 are taken")
  else if (number == 19)
    say("the combined table has " figure " transitions; at most 1024 are taken")
  else if (number == 20)
    say("the words lead to " figure " sets of rows or more; at most 256 are taken")
  else
    say("figure " figure)
}
