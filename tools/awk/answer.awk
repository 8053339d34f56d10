# Reads a model (source or hex) and an answer; the programs beside this file print what is then known:
#   name[1..parameters], above[i] / below: the reference; outcome, states, attempts, formed, rows;
#   at[r, 0..8]: the numbers of region row r, strict[r].
# The first file is the model, the second the answer.

function fault(what) { print "tools: " what | "cat 1>&2"; failed = 1; exit 1 }
function digits(text, i, n) {
  n = 0
  for (i = 1; i <= length(text); i++) n = n * 16 + index("0123456789ABCDEF", substr(text, i, 1)) - 1
  return n
}
function signed(text, n) { n = digits(text); return n >= 2147483648 ? n - 4294967296 : n }
function divisor(a, b, t) { while (b > 0) { t = a % b; a = b; b = t } return a }

# A parameter line of a source: "parameter NAME = N" or "parameter NAME = N/D".
function named(line, part, d) {
  sub(/#.*/, "", line)
  sub(/\r$/, "", line)
  sub(/^[ \t]*parameter[ \t]+/, "", line)
  split(line, part, "=")
  gsub(/[ \t]/, "", part[1]); gsub(/[ \t]/, "", part[2])
  name[++parameters] = part[1]
  d = 1
  if (index(part[2], "/")) { d = substr(part[2], index(part[2], "/") + 1) + 0; sub(/\/.*/, "", part[2]) }
  if (d < 1) fault("the model has a reference without a denominator")
  above[parameters] = part[2] + 0; own[parameters] = d
}
function model_line(line, i) {
  if (line ~ /^[ \t]*parameter[ \t]/) named(line)
  else if (line ~ /^01[0-9A-F]+$/ && length(line) == 10) { parameters = digits(substr(line, 5, 2)); from_hex = 1 }
  else if (from_hex && line ~ /^02[0-9A-F]+$/ && length(line) == 10 + 8 * parameters) {
    for (i = 1; i <= parameters; i++) { name[i] = "p" i; above[i] = digits(substr(line, 3 + 8 * i, 8)); own[i] = digits(substr(line, 3, 8)) }
  }
}
function answer_line(line, i, n, e) {
  if (line !~ /^[0-9A-F]+$/) fault("the answer has a line that is not hexadecimal")
  if (!answered) {
    if (line !~ /^05/ || length(line) != 22) fault("the answer does not begin with a frame 05")
    outcome = digits(substr(line, 3, 2)); states = digits(substr(line, 5, 4)); attempts = digits(substr(line, 9, 4))
    formed = digits(substr(line, 13, 8)); due = digits(substr(line, 21, 2))
    answered = 1; rows = 0
    return
  }
  n = digits(substr(line, 9, 2))
  if (line !~ /^030000/ || length(line) != 10 + 10 * n) fault("the answer has a line that is no row of a region")
  rows++
  strict[rows] = digits(substr(line, 7, 2))
  for (i = 0; i < n; i++) {
    e = digits(substr(line, 11 + 10 * i, 2))
    if (e > parameters) fault("the answer names parameter " e ", the model has " parameters + 0)
    at[rows, e] = signed(substr(line, 13 + 10 * i, 8))
  }
}
# A model that was refused with 1 to 6 may be beyond reading; its refusal can still be explained.
function all_read(i) {
  if (!answered) fault("no answer to read")
  if (parameters < 1 || name[1] == "") {
    if (outcome < 1 || outcome > 6) fault("the model has no parameters: is it a model?")
    parameters = 0
  }
  if (rows != due) fault("the answer promises " due " rows and has " rows)
  below = 1
  for (i = 1; i <= parameters; i++) below = below / divisor(below, own[i]) * own[i]
  for (i = 1; i <= parameters; i++) above[i] *= below / own[i]
}
function fraction(a, b, d) {
  d = divisor(a, b)
  if (d > 1) { a /= d; b /= d }
  return b == 1 ? sprintf("%d", a) : sprintf("%d/%d", a, b)
}
# A row with the positive terms on the left and the negative ones on the right.
function row_words(r, i, left, right, n) {
  left = ""; right = ""
  for (i = 1; i <= parameters + 1; i++) {
    n = at[r, i <= parameters ? i : 0] + 0
    if (n > 0) left = left (left == "" ? "" : " + ") term(n, i)
    if (n < 0) right = right (right == "" ? "" : " + ") term(-n, i)
  }
  if (left == "") left = "0"
  if (right == "") right = "0"
  return left (strict[r] ? " < " : " ≤ ") right
}
function term(n, i) {
  if (i > parameters) return sprintf("%d", n)
  return (n == 1 ? "" : sprintf("%d·", n)) name[i]
}

FNR == 1 { file_number++ }
file_number == 1 { model_line($0); next }
{ answer_line($0) }
