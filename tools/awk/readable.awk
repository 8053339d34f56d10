# Prints an answer for people. After answer.awk.

function say(text) { print text }
function many(n, what) { return n " " what (n == 1 ? "" : "s") }
# Where the exploration stood; without a kept state it was at a start state.
function where() {
  if (states == 0 && formed == 0) return "while the very first state was formed"
  if (states == 0) return "while the start state of attempt " attempts + 1 " was formed"
  return "at successor no. " formed ", in attempt " attempts + 1 ", which had " many(states, "state")
}
function after(text) { text = where(); sub(/^at/, "after", text); return text }
function advice() {
  if (outcome == 1) return "The input is no sequence of frames: a line is empty, has an odd number of digits, a character other than 0-9 and A-F, an unknown kind or a wrong length, the last line has no line feed, or there are more than 65536 bytes.|Make the file with tools/model-hex, or compare it with docs/FORMAT.md line by line."
  if (outcome == 2) return "A frame is missing, comes twice or too early, or there are more than 128 rows.|The order is 01, 02, 04 (one for each transition declared), 03."
  if (outcome == 3) return "The header is out of range.|A model has up to 6 clocks, 8 parameters, 32 locations and 64 transitions, and at least one of each but the last."
  if (outcome == 4) return "The reference is out of range.|Denominator 1 to 1000000, numerators 0 to 1000000; a coarser unit of time helps."
  if (outcome == 5) return "Something is named that is not declared: a location, an owner, a clock or parameter, a reset, a flag; or the initial constraint names a clock.|Look at the numbers in the 04 and 03 frames against the header."
  if (outcome == 6) return "A row is badly written: no term or more than 15, a coefficient that is 0 or beyond 1000000, or entries that do not rise.|Add up the terms of one variable, leave out zero terms, and use a coarser unit where a number is too large."
  if (outcome == 7) return "The reference itself breaks the initial constraint.|Change the reference or the constraint: there is nothing around it to compute."
  if (outcome == 8) return "The reference breaks the invariant of the first location with all clocks at 0.|No run could begin there: change the reference or the invariant."
  if (outcome == 9) return "A row needed an entry beyond 1000000000 " where() ".|Factors multiply when rows are paired: use a coarser unit, rates with fewer digits, or bounds with common factors."
  if (outcome == 10) return "A set (a state, its shadow, one on the way to them, or the region) needed more than 128 rows " where() ".|Clocks that run on while others are set to 0 make sets wide: set clocks to 0 together, set those to 0 that are no longer read, use fewer, or split the model (docs/LIMITS.md)."
  if (outcome == 11) return "The row store or the roll of states was full (the program lends 900 rows and 256 states) " where() ".|If a clock is never set to 0 no state may ever repeat: reset it, or leave it out. Else bound the number of rounds, or split the model."
  if (outcome == 12) return "The budget was used up and a further successor was due, " after() ".|The exploration was still going on: split the model, or bound the number of rounds."
  if (outcome == 13) return "A store that was lent is below 2176 numbers.|This is a fault of the caller, not of the model."
  return "An outcome that does not exist: " outcome
}
# Whether row r holds wherever row q does and no parameter is negative: some k > 0 makes every term of r at most k times
# that of q. q = 0 stands for no row at all. Numbers whose products a double cannot hold are left to k = 1.
function follows(r, q, i, x, y, low, lowdown, high, highdown, large) {
  if (strict[r] && !(q && strict[q])) return strictly_less(r, q)
  low = 0; lowdown = 1; high = -1; highdown = 1; large = 0
  for (i = 0; i <= parameters; i++) {
    x = at[r, i] + 0; y = q ? at[q, i] + 0 : 0
    if (size(x) > 90000000 || size(y) > 90000000) large = 1
    if (y == 0 && x > 0) return 0
    if (y > 0 && x > 0 && x * lowdown > low * y) { low = x; lowdown = y }
    if (y < 0) {
      if (x >= 0) return 0
      if (high < 0 || -x * highdown < high * -y) { high = -x; highdown = -y }
    }
  }
  if (large) return less_by_term(r, q)
  return high < 0 || low * highdown <= high * lowdown
}
function size(x) { return x < 0 ? -x : x }
function less_by_term(r, q, i) {
  for (i = 0; i <= parameters; i++) if (at[r, i] + 0 > (q ? at[q, i] + 0 : 0)) return 0
  return 1
}
# A strict row after one that is not: the constant has to make the difference.
function strictly_less(r, q) { return less_by_term(r, q) && at[r, 0] + 0 < (q ? at[q, 0] + 0 : 0) }
# Rows are set aside one after the other, each for one that stays or for none at all.
function set_aside(r, q, others) {
  others = 0
  for (r = 1; r <= rows; r++) needed[r] = 1
  for (r = 1; r <= rows; r++) for (q = 0; q <= rows; q++) if (needed[r] && q != r && (q == 0 || needed[q]) && follows(r, q)) { needed[r] = 0; others++ }
  return others
}
function region(r, others) {
  others = set_aside()
  if (others == rows) say("Every setting of nonnegative parameters has the traces of the reference.")
  else {
    say("Every setting of nonnegative parameters with")
    for (r = 1; r <= rows; r++) if (needed[r]) say("  " row_words(r))
    say("has the traces of the reference.")
  }
  if (others == 0) return
  say("The region has " others " more " (others == 1 ? "row, which follows" : "rows, which follow") (others == rows ? "" : " from these") (all == "" ? " (option -a shows them)." : ":"))
  for (r = 1; r <= rows; r++) if (all != "" && !needed[r]) say("  " row_words(r))
}
END {
  if (failed) exit 1
  all_read()
  reference = parameters ? "" : "(the model cannot be read)"
  for (i = 1; i <= parameters; i++) reference = reference (i == 1 ? "" : ", ") name[i] " = " fraction(above[i], below)
  if (outcome == 0) {
    say("Region found (outcome 0).")
    say("Reference: " reference)
    say("Counts: " many(states, "state") " kept, " many(attempts, "new attempt") ", " many(formed, "successor") " formed.")
    region()
    exit 0
  }
  say("No region: refusal " outcome ".")
  say("Reference: " reference)
  n = split(advice(), said, "|")
  for (i = 1; i <= n; i++) say((i == 2 ? "What to do: " : "") said[i])
  if (outcome >= 9 && outcome <= 12) say("Counts: " many(states, "state") " kept in the last attempt, " many(attempts, "new attempt") ", " many(formed, "successor") " formed.")
}
