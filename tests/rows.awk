# Takes a table of program texts apart: rows=FOLDER gets the file `wants`, with a line for each row (the number of its line in the
# table, and how its text is answered), and for each of them the files NUMBER.text and, where the table says what is
# printed, NUMBER.printed.
#
# A table begins with lines of comment, `-- ...`. Behind them a block begins with one of these lines:
#   == begin          what each later text begins with, up to the next such block
#   == printed        a text that is accepted; after a line `==>` what is printed of it
#   == formulas       lines `FORMULA ==> PRINTED`, each of them a row: what each text begins with and the formula, and what
#                     is printed of it, which begins with the same
#   == accepted       a text that is accepted
#   == MESSAGE        a text that is refused with this message
# In these texts `\n` and `\r` stand for a line feed and a carriage return, and `\c` at the end of a line for nothing, and
# no line feed is behind it. A line `*N PIECE` stands for N copies of the piece, one after another, with no line feed behind
# them; `{i}` in it is the number of the copy, from 0, and `{j}` the next number.

function fail(what) {
  printf "%s:%d: %s\n", FILENAME, FNR, what > "/dev/stderr"
  bad = 1
  exit 1
}

function without_escapes(text) {
  gsub(/\\n/, "\n", text)
  gsub(/\\r/, "\r", text)
  return text
}

function copies(piece, times,    half) {
  if (times == 0) return ""
  if (times == 1) return piece
  half = copies(piece, int(times / 2))
  return times % 2 ? half half piece : half half
}

# The copy of the piece in `parts` that has this number.
function numbered_copy(number,    all, at) {
  all = parts[1]
  for (at = 2; at <= parts_count; at++)
    all = all (number + (substr(parts[at], 1, 1) == "j")) substr(parts[at], 3)
  return all
}

# The copies from one number up to another.
function numbered_copies(from, past,    half) {
  if (past == from) return ""
  if (past - from == 1) return numbered_copy(from)
  half = int((from + past) / 2)
  return numbered_copies(from, half) numbered_copies(half, past)
}

function numbered(piece, times) {
  parts_count = split(piece, parts, "{")
  return numbered_copies(0, times)
}

# What a line of a text stands for.
function meant(line,    times, piece) {
  if (line ~ /^\*[0-9]+ /) {
    times = substr(line, 2) + 0
    piece = without_escapes(substr(line, index(line, " ") + 1))
    return piece ~ /\{[ij]\}/ ? numbered(piece, times) : copies(piece, times)
  }
  if (line ~ /\\c$/) return without_escapes(substr(line, 1, length(line) - 2))
  return without_escapes(line) "\n"
}

function put(number, want, text, printed, is_printed,    file) {
  print number, want > (rows "/wants")
  file = rows "/" number ".text"
  printf "%s", text > file
  close(file)
  if (is_printed) {
    file = rows "/" number ".printed"
    printf "%s", printed > file
    close(file)
  }
}

# Puts the block that ends here.
function end_block() {
  if (kind == "begin") begun = text
  else if (kind == "printed") put(start, "accepted", begun text, printed, 1)
  else if (kind != "" && kind != "formulas") put(start, kind, begun text, "", 0)
}

/^== / {
  end_block()
  kind = substr($0, 4)
  start = FNR
  text = printed = ""
  is_behind = 0
  next
}

kind == "" {
  if ($0 !~ /^--/) fail("not a comment, and no block has begun")
  next
}

kind == "formulas" {
  at = index($0, " ==> ")
  if (!at) fail("no formula and what is printed of it")
  put(FNR, "accepted", begun meant(substr($0, 1, at - 1)), begun substr($0, at + 5) "\n", 1)
  next
}

kind == "printed" && $0 == "==>" {
  is_behind = 1
  next
}

is_behind {
  printed = printed $0 "\n"
  next
}

{
  text = text meant($0)
}

END {
  if (bad) exit 1
  end_block()
  close(rows "/wants")
}
