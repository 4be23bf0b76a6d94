#!/usr/bin/env python3
"""Counts and lists the places in crates/*/src that could take a newer form of the language, by docs/DESIGN-PASS.md.

Use: tools/places.py [POINT ..] [--totals]. A line a place, `POINT crate/file:line name  what`, and a total a point.
The rules read text: the layout is the formatter's, so that an item ends at the brace that stands as far in as its head.
"""
import collections, itertools, pathlib, re, shutil, subprocess, sys, tempfile

ROOT = pathlib.Path(__file__).resolve().parent.parent
Item = collections.namedtuple("Item", "file line kind name head needs body")
NONE = "No|Absent|Nothing|Bad|NoEvent|Beyond|Later|Clash|Refused"
FLAGS = "good there long held through".split()
KEYWORDS = set("if else match while loop return let mut as fn for in self true false break continue".split())
# Places that no rule below sees: point, crate/file, a text that stands there as long as the place does, name, what.
EXTRA = """
1|desk/lib|fn find(self, want: bool, start: usize) -> usize|Desk::find|16 further where there is none
1|desk/lib|fn seat_of(self, ticket: u32) -> usize|Desk::seat_of|16 where there is none
1|timetable/fields|fn after_tabs(line: &[u8], n: usize) -> usize|after_tabs|one past the end where there is none
1|line_fields/hex|fn digit_of(b: u8) -> u8|digit_of|16 where there is none
1|numerals/lib|pub fn byte(s: &[u8], at: usize) -> u8|byte|0 past the end
1|calendar/lib|pub fn leap_row(year: u16) -> usize|leap_row|0 or 1 for a truth value
1|text_scan/lib|pub sign: u8|FoundZone|sign 0 where there is none
1|text_scan/lib|pub point: usize|FoundClock|point 0 where there is none
1|library_lines/calls|call: usize) -> usize|unless|0 for no call
1|library_lines/calls|fn close_by(line: &[u8]) -> usize|close_by|0 for no call
1|library_lines/calls|word: &[u8]) -> usize|call_by|0 for no call
1|library_lines/calls|fn call_in(line: &[u8]) -> usize|call_in|0 for no call
1|library_lines/calls|at: usize) -> usize|call_at|0 for no call
2|value_instants/ticks|fn instant_at(|instant_at|like local_at, the sign turned
2|value_instants/ticks|return clocks::span(0);|forward|like plus_ticks
2|calls_replies/building|fn pushed(|pushed|like push
2|output_turns/lib|desk_seat::served(|take_turns|like Desk::next
2|hostile_changes/lib|[0u8; Seat::ROOM]|with_condition|like padded
2|desk_seat/lib|pub struct Spot {|Spot|like AtPlace, less a field
2|text_blanks/lib|fn end_of(|end_of|like kept, with another test of a byte
2|text_blanks/lib|fn start_of(|start_of|like stretch_end, with another test of a byte
2|timetable/parts|fn offset_of(|offset_of|like stretch_end, with another test of a byte
3|text_scan/lib|byte(s, at + 2) != b'0'|zeros|four bytes by their offsets
4|hostile_answers/lib|let any = text.len()|show_seat|equality with a free seat, by all fields or-ed
4|value/kinds|fn number(kind: Kind)|number|a number for each variant, to compare by
4|operation_ordering/lib|if spans::is_less(q, p)|order_of|two tests for an order
4|calls_replies/numbers|let below|magnitude|unsigned_abs
4|condition_givens/lib|fn valued(|valued|a conversion
4|condition_givens/lib|fn bad(|bad|a conversion
4|run_cases/lib|fn moment(v: Value)|moment|a conversion
4|library_lines/given|fn offset(n: Signed)|offset|a conversion
4|operation_adjusting/lib|fn zone_of(|zone_of|a conversion
4|condition_symbols/lib|fn kind_named(|kind_named|a conversion
4|line_fields/hex|if b < b'a' {|digit_of|a range of bytes by hand
4|condition_words/lib|return b <= b'z';|letter|a range of bytes by hand
4|numerals/lib|if b < b'0' {|digit|a range of bytes by hand
6|timetable_reader/lib|pub at: usize|LineReader|a timetable with an offset beside it
7|desk/lib|want: bool|Desk::find|a flag chooses the test
7|library_example/seats|TURN => {|answer_all|numbers choose the call
7|condition_operators/lib|fn joins(role: Role)|joins|Role matched
7|condition_operators/lib|fn settles(role: Role|settles|Role matched
7|condition_sorts/lib|fn kinds(role: Role|kinds|Role chooses the call
7|condition_parts/evaluation|fn of_values(role: Role|of_values|Role chooses the call
7|condition_parts/evaluation|fn right_mode(mode: Mode|right_mode|Mode matched
7|condition_words/lib|fn belongs(class: Class|belongs|Class chooses the test
"""

def items():
    found, texts = [], {}
    for path in sorted(ROOT.glob("crates/*/src/**/*.rt")):
        file = str(path.relative_to(ROOT / "crates")).replace("/src/", "/")[:-3]
        lines = texts[file] = [re.sub(r"(^|\s)//.*", "", line) for line in path.read_text().splitlines()]
        for at, line in enumerate(lines):
            head = re.match(r"( *)(?:pub(?:\(\w+\))? )?(?:const )?(fn|struct|enum) (\w+)", line)
            if not head or line.endswith((";", "}")):
                continue
            end = next(k for k in range(at + 1, len(lines)) if lines[k].startswith(head[1] + "}"))
            claims = [k for k in range(at, end) if lines[k].lstrip().startswith(("requires", "ensures"))]
            begin = next(k for k in range(at, end) if k not in claims and lines[k].endswith("{"))
            sign = " ".join(lines[k].strip() for k in range(at, begin + 1) if k not in claims)
            needs = [lines[k].strip() for k in claims if "requires" in lines[k]]
            found += [Item(file, at + 1, head[2], head[3], sign, needs, lines[begin + 1:end])]
    return found, texts

def params(item):
    inner = re.search(r"\((.*)\)", item.head.split(" -> ")[0]) if item.kind == "fn" else None
    parts = re.split(r",\s*(?![^<\[(]*[>\])])", inner[1]) if inner else []
    return [p.strip().removeprefix("mut ") for p in parts if ":" in p]

def fields(item):
    return [f for f in (re.match(r"\s+(?:pub )?(\w+)(?::|\(|,|$)(.*)", line) for line in item.body) if f]

def blanked(item):
    """The body with its names, literals and types blanked."""
    words = re.findall(r"b?\"[^\"]*\"|b'[^']*'|\w+|\S", " ".join(item.body))
    plain = " ".join(w if w in KEYWORDS or not re.match(r"\w|b?['\"]", w) else "_" for w in words)
    return re.sub(r"_ as _", "_", re.sub(r"_( : : _)+", "_", plain))

def facts(item):
    names = "|".join(p.split(":")[0] for p in params(item)) or "-"
    for clause in item.needs:
        for fact in (re.search(r"\{(.*)\}", clause) or ("", ""))[1].split(" × "):
            fact = fact.strip()
            while fact.startswith("(") and fact.endswith(")") and "→" not in fact:
                fact = fact[1:-1].strip()
            fact = re.sub(r"\b\w+\.(?=ok_)", "", re.sub(rf"(?<![.\w])({names})(?=[.\s)]|$)", "_", fact))
            yield re.sub(r"^.* \+ .* ([≤<]) (\w+|2 \^ 64)$", r".. \1 \2", fact)

def lines_of(texts):
    return ((file, at, line) for file, lines in texts.items() for at, line in enumerate(lines, 1))

def point_1(found, texts):
    for i in found:
        for f in fields(i):
            if i.kind == "struct" and f[1] in FLAGS and "bool" in f[2] and len(fields(i)) > 1:
                yield i, f"the flag {f[1]} beside a value"
        nones = ", ".join(f[1] for f in fields(i) if i.kind == "enum" and f[1] in NONE.split("|"))
        if nones:
            yield i, "an enum with " + nones
        if re.search(r"\bnumber: u8\b", i.head):
            yield i, "takes a number for a refusal"
    whole = "\n".join(line for _, _, line in lines_of(texts))
    for file, at, line in lines_of(texts):
        const = re.match(r"\s*(?:pub )?const (\w+): (?:u8|usize) = (\d+|Refusal::\w+);", line)
        if const and (file == "value/lib" or const[2][0] == "R" or re.search(rf"^\s+{const[1]} => ", whole, re.M)):
            yield (file, at, const[1]), "a number for a kind or a refusal"
        if "Refusal::numbered(" in line:
            yield (file, at, "numbered"), "a refusal made of its number"
        for arm in re.findall(rf"^\s*\w+::({NONE})(?:\(\w+\))? => (?:return )?\w+::\1\b", line):
            yield (file, at, arm), "an arm that hands it on"

def point_2(found, texts):
    groups = collections.defaultdict(list)
    for i in found:
        if i.kind == "fn":
            body = blanked(i)
            if len(body.split()) >= (9 if "if " in body else 12):
                groups["body", body].append(i)
            elif re.fullmatch(r"\s*(\w+::)?[A-Z_]+", " ".join(i.body)):
                groups["body, a constant", ""].append(i)
            groups["name, parameters and body", i.name + str(params(i)) + body].append(i)
        elif len(fields(i)) > 1:
            groups["names of " + i.kind, str(sorted(f[1] for f in fields(i)))].append(i)
    for file, at, line in lines_of(texts):
        const = re.match(r"(?:pub )?const (\w+): .*;", line)
        if const:
            groups["constant", line.removeprefix("pub ")] += [Item(file, at, "const", const[1], "", [], [])]
    seen = set()
    for (same, _), twins in groups.items():
        for i in twins if len(twins) > 1 and twins[0].name != "main" else []:
            if (i.file, i.line) not in seen:
                seen.add((i.file, i.line))
                yield i, f"same {same}: " + ", ".join(sorted(j.file + " " + j.name for j in twins if j is not i)[:3])

def point_3(found, texts):
    for file, at, line in lines_of(texts):
        for loop in re.findall(r"^( *)(?:while|loop)\b", line):
            body = itertools.takewhile(lambda l: not l.startswith(loop + "}"), texts[file][at:])
            steps = [l.strip() for l in body if re.search(r"\w [+-]= 1;|^\s+\w+ = .*\b(next\w*|after\w*|moved)\b", l)]
            if steps:
                yield (file, at, line.strip(" {")), steps[-1]
    for i in found:
        if i.kind == "fn" and re.search(rf"\b{i.name}\(.*\b\w+ - 1\)", " ".join(i.body)):
            yield i, "calls itself with a counter less 1"

def point_4(found, texts):
    for i in (j for j in found if j.kind == "fn"):
        body = "\n".join(i.body)
        if "-> bool" in i.head and re.search(r"if .* (!=|==) .*\{\n\s*return (true|false);", body):
            yield i, "equality step by step"
        if re.search(r"if (\S+) < (\S+) \{\s*return true;\s*\}\s*if \2 < \1 \{\s*return false", body):
            yield i, "order step by step"
        if re.search(r"if (\w+) < (\w+) \{ \1 \} else \{ \2 \}", body):
            yield i, "min"
        copied = collections.Counter(re.findall(r"^\s+\w+: (\w+)\.\w+(?: as \w+)?,$", body, re.M))
        if max(copied.values(), default=0) > 1:
            yield i, "a record's fields copied one by one"
        if re.match(r"(tell|told|show)", i.name) and "rt: &impl Print" in i.head:
            yield i, "printed by hand"
    for file, at, line in lines_of(texts):
        if re.search(r"(?<!fn )\bsame\((?!.*b\")", line):
            yield (file, at, "same"), "a call of equality by hand"

def point_5(found, texts):
    stands = collections.Counter(fact for i in found for fact in set(facts(i)))
    for i in found:
        for fact in sorted(set(facts(i))):
            if stands[fact] > 2:
                yield i, f"fact {fact} ({stands[fact]} contracts)"
    sets = [(i, frozenset(p for p in params(i) if not p.startswith("rt:"))) for i in found]
    groups = {a & b for (_, a), (_, b) in itertools.combinations(sets, 2) if len(a & b) > 1}
    groups = {g: sum(g <= s for _, s in sets) for g in groups if len({p.split(":")[1] for p in g}) > 1}
    groups = {g: n for g, n in groups.items() if n >= (3 if len(g) > 2 else 5)}
    for i, own in sets:
        best = max((g for g in groups if g <= own), key=lambda g: (len(g), groups[g], sorted(g)), default=None)
        if best:
            yield i, f"parameters {', '.join(sorted(best))} ({groups[best]} functions)"

def point_6(found, texts):
    for i in found:
        names = {f[1] for f in fields(i)}
        for f in fields(i):
            lengths = {"len", "count", f[1] + "_len", f[1] + "_length"}
            if i.kind == "struct" and f[2].startswith(" [u8;") and lengths & names:
                yield i, f"the buffer {f[1]} with its length beside it"
            if i.kind == "enum" and f[2].count("usize") > 1:
                yield i, f"offsets for a slice in {f[1]}"
        if i.kind == "struct" and len({"start", "end", "next"} & names) > 1:
            yield i, "offsets for a slice"
    for file, at, line in lines_of(texts):
        for a, n, b, m in re.findall(r"&(?:mut )?(\w+)\[\.\.([a-z]\w*)\]|\bcut\(&?(\w+), 0, ([\w.]+)\)", line):
            yield (file, at, a or b), f"a buffer as far as {n or m}"

def point_7(found, texts):
    unit = {i.name for i in found if i.kind == "enum" and all(not f[2].strip(" ,") for f in fields(i))}
    for i in (j for j in found if j.kind == "fn"):
        body = "\n".join(i.body)
        for name, kind in (p.split(": ", 1) for p in params(i)):
            calls = set(re.findall(r"=> (?:return )?((?:\w+::)*[a-z]\w*)\(", body))
            if kind in unit and re.search(rf"match {name} \{{", body) and len(calls) > 1:
                yield i, kind + " chooses the call"
        if len(re.findall(r"if same\(\w+, b\"", body)) > 1:
            yield i, "a chain of words"
        if "-> bool" not in i.head and len(re.findall(r"if \w+ == b'", body)) > 1:
            yield i, "a chain of letters"

def pairs():
    """The pairs of the command `duplicates`, which does not know .rt: the files are copied as .rs, without imports."""
    with tempfile.TemporaryDirectory() as copy:
        for path in ROOT.glob("crates/*/src/**/*.rt"):
            to = pathlib.Path(copy, path.relative_to(ROOT / "crates")).with_suffix(".rs")
            to.parent.mkdir(parents=True, exist_ok=True)
            to.write_text(re.sub(r"(?m)^(ghost )?use .*$", "", path.read_text()))
        said = subprocess.run(["duplicates", "--repo", copy, "--most", "60"], capture_output=True, text=True).stdout
    return [line for line in said.splitlines() if re.match(r"D\d+ ", line)]

def main():
    (found, texts), totals = items(), {}
    for n in [a for a in sys.argv[1:] if a.isdigit()] or "1234567":
        places = [((i.file, i.line, i.name) if isinstance(i, Item) else i, what)
                  for i, what in globals()["point_" + n](found, texts)]
        for point, file, still, name, what in (row.split("|") for row in EXTRA.strip().split("\n")):
            at = [k for k, line in enumerate(texts.get(file, []), 1) if still in line]
            places += [((file, at[0], name), what)] if point == n and at else []
        totals[n] = len(places)
        for (file, line, name), what in [] if "--totals" in sys.argv else sorted(places):
            print(f"{n} {file}:{line} {name}  {what}")
    if "2" in totals and shutil.which("duplicates"):
        shown = pairs()
        totals["2, pairs of the command duplicates beside it"] = len(shown)
        for pair in [] if "--totals" in sys.argv else shown:
            print("2 pair", pair)
    print("\n".join(f"point {n}: {total}" for n, total in totals.items()))
main()
