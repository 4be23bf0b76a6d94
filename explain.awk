# Adds to each line that the desk program prints what it is about; `./try --explain` calls it.
# It reads the timetable, the conditions and the answers, and `part` says which of them. Of the first two no control
# byte is shown, and nothing that is not UTF-8: a tab is an arrow, a CR is \r, each other such byte a question mark.

function shown(text,   out, bad) {
  if (text == "") return "(empty)"
  # Good UTF-8 too has control characters, and some that cannot be seen.
  gsub(/\302[\200-\240]|\342\200[\213-\217\250-\256]|\357\273\277/, "?", text)
  while (match(text, good)) {
    bad = substr(text, 1, RSTART - 1)
    gsub(/[^\t\r]/, "?", bad)
    out = out bad substr(text, RSTART, RLENGTH)
    text = substr(text, RSTART + RLENGTH)
  }
  gsub(/[^\t\r]/, "?", text)
  out = out text
  gsub(/\t/, "→", out)
  gsub(/\r/, "\\r", out)
  return out
}

function reason(number, what) {
  if (number == 1) return "a " what " that is no value of its kind: shape, calendar or clock"
  if (number == 2) return "a " what " beyond the bounds of its kind"
  if (number == 3) return "a " what " with over nine fraction digits"
  return (number in reasons) ? reasons[number] : "refusal " number
}

# Of a run, which departure a turn judged; nothing where a line is one departure.
function at_place(offset, place) {
  if (offset in runs) return "place " place " of the run  # "
  return place == 0 ? "" : "place " place "  # "
}

function many(count, what) { return count " " what (count == 1 ? "" : "s") }

BEGIN {
  c = "[\200-\277]"
  good = "([ -~]|[\302-\337]" c "|\340[\240-\277]" c "|[\341-\354\356\357]" c c "|\355[\200-\237]" c \
    "|\360[\220-\277]" c c "|[\361-\363]" c c c "|\364[\200-\217]" c c ")+"
  reasons[4] = "a result beyond the bounds of its kind"
  reasons[6] = "a field that the line has not"
  reasons[7] = "not a condition: its length or its grammar"
  reasons[8] = "over sixteen parentheses deep"
  reasons[9] = "kinds that do not fit"
  reasons[10] = "all sixteen seats are held"
  reasons[17] = "a run whose step is not above zero"
  reasons[18] = "a run of over 1,440 departures"
}

part == "timetable" { line[at + 0] = shown($0); if ($2 == "every") runs[at + 0]; at += length($0) + 1; next }
part == "conditions" { condition[++given] = shown($0); next }

{ about = "" }
$1 == "open" { about = of[$2] = condition[++asked] }
$1 == "refused" { about = too_long != "" ? too_long : reason($2, "literal") "  # " condition[++asked] }
$1 == "hit" || $1 == "miss" { about = at_place($3, $4) line[$3] "  # " of[$2] }
$1 == "unreadable" { about = reason($4, "field") "  # " line[$3] "  # " of[$2] }
$1 == "done" { about = many($3, "hit") ", " many($4, "unreadable turn") "  # " of[$2] }
$1 == "idle" { about = "every accepted condition is done" }
{ print $0 "  # " about }
