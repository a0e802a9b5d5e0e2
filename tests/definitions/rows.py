"""rows.py: turns the statements of the vector files into rows: theorems that say what a definition gives on an input."""
import re

from vectors import DEFINING, FILES, area_lines, counted, edit, hexes, meaning_lines, options, places_in, refusal, sections_in, source_refusal, strings_in

FILLER = 165  # what a lent area holds before a call
ROOMY = 1_000_000  # the table area where a row names none
SIGNS = {"<": "less", "=": "equal", ">": "greater"}


# ---------------------------------------------------------------- terms of antt


def listed(terms):
    return "(" + " ∷ ".join([*terms, "[]"]) + ")"


def numbers(ns):
    return listed(str(n) for n in ns)


def text(bs):
    """Bytes, through the paper's own `bytes`."""
    special = {10: "\\n", 34: '\\"', 92: "\\\\"}
    return '(bytes "' + "".join(special.get(b) or (chr(b) if 32 <= b <= 126 else "\\u{%x}" % b) for b in bs) + '")'


def string(pieces):
    """A string of pieces (numbers, how often)."""
    parts = [numbers(ns * times) if times == 1 or len(ns) != 1 else f"replicate {times} {ns[0]}" for ns, times in pieces]
    return "(" + " ++ ".join(parts or ["[]"]) + ")"


def length(pieces):
    return sum(len(ns) * times for ns, times in pieces)


def rules(levels):
    """The rules of levels (backward, position)."""
    return listed("record { backward = %s; position = %s }" % (str(b).lower(), str(p).lower()) for b, p in levels)


def item(chars, weights):
    return f"record {{ chars = {numbers(chars)}; weights = {listed(numbers(w) for w in weights)} }}"


def meaning(levels, items):
    return f"record {{ rules = {rules(levels)}; items = {listed(item(*i) for i in items)} }}"


def meaning_parts(left, levels, items):
    """The parts of what a source gives, as (label, left side, right side)."""
    given = f"(meaning_given ({left})).items"
    yield "levels", f"(meaning_given ({left})).rules", rules(levels)
    yield f"there being {len(items)} items", f"length {given}", len(items)
    for k, (chars, weights) in enumerate(items):
        label = " ".join("%04X" % c for c in chars) or "UNDEFINED"
        yield f"item {k + 1}, {label}", f"get_or {given} {k} (item [] [])", item(chars, weights)


def area_parts(left, ns):
    """The parts of what a charmap gives, sixteen bytes at a time."""
    for k in range(0, 512, 16):
        label = f"{'marks' if k > 255 else 'codes'} of {k % 256:02X} to {k % 256 + 15:02X}"
        yield label, f"take 16 (drop {k} (numbers_given ({left})))", numbers(ns[k : k + 16])


def size_of(levels, items):
    """16 + L + I x (6 + L) + W"""
    return 16 + len(levels) + len(items) * (6 + len(levels)) + sum(len(w) for cs, ws in items for w in ws)


# ---------------------------------------------------------------- rows


class Row:
    """A row: its place and name, what it says is expected, its theorems (left side, right side) and the named terms that they use. Of a
    source, where it fails: the left side and how many lines there are, to look for its refusal; and theorems (label, left side, right
    side) of the parts of what is expected."""

    def __init__(self, st):
        self.place, self.where, self.name = st.place, st.where, st.name
        self.expected = " / ".join(line for where, line in st.expected)
        self.theorems, self.uses, self.source, self.parts = [], [], None, []


class Book:
    """The named things of all files, and the rows."""

    def __init__(self):
        self.frames, self.sources, self.rows = {}, {}, []
        self.terms = {}  # name: (type, term, the names that it uses); a type is Meaning (a table) or List ℕ (a damaged table, a map)
        self.areas = {}  # the numbers of a map

    def add_all(self, found):
        """Takes in all statements: first those that name something, in the order in which they may use one another."""
        for kind in [*DEFINING, None]:
            for st in found:
                if kind == st.kind or kind is None and st.kind not in DEFINING:
                    getattr(self, st.kind)(st)
        self.rows.sort(key=lambda row: row.place)

    def row(self, st):
        if not st.expected:
            st.fail("nothing is expected of it: `-> ..`")
        self.rows.append(Row(st))
        return self.rows[-1]

    def name(self, st, kept, value):
        """Keeps a named thing; a name is given once."""
        if len(st.words) < 2 or not re.fullmatch(r"[A-Za-z][A-Za-z0-9]*", st.words[1]) or st.words[1] in kept:
            st.fail(f"`{st.kind}` has a name of its own, of letters and digits")
        kept[st.words[1]] = value

    def base(self, st, kept):
        """The name after `from`, or None."""
        if len(st.words) == 2:
            return None
        if len(st.words) != 4 or st.words[2] != "from" or st.words[3] not in kept:
            st.fail(f"it is `{st.kind} NAME`, or `{st.kind} NAME from NAME` with a name that is given above")
        return st.words[3]

    # ---- what has a name

    def frame(self, st):
        if st.split is None or len(st.words) != 2:
            st.fail("a frame has a name, and a line `@` where the input stands")
        self.name(st, self.frames, (st.given[: st.split], st.given[st.split :]))

    def source(self, st):
        self.name(st, self.sources, st.given)

    def table(self, st):
        """A meaning; where a source is given, that it compiles to it is a row."""
        self.name(st, self.terms, ("Meaning", meaning(*meaning_lines(st)), []))
        if st.given:
            self.name(st, self.sources, st.given)
            self.compiled(st, st.given, {})

    def map(self, st):
        base = self.base(st, self.areas)
        ns = list(self.areas[base]) if base else area_lines([(st.where, "nothing")])
        for k, (new, none) in enumerate(zip(area_lines(st.expected or [(st.where, "nothing")]), area_lines([(st.where, "nothing")]))):
            if new != none:
                ns[k] = new
        for where, words in st.edits:
            what, *by = edit(where, words)
            if what == "set" and by[0] < len(ns):
                ns[by[0]] = by[1]
            elif what == "cut":
                ns = ns[: by[0]]
            elif what == "add":
                ns = ns + by[0]
            else:
                st.fail(f"no place {by[0]}")
        self.name(st, self.areas, ns)
        self.name(st, self.terms, ("List ℕ", numbers(ns), []))

    def damaged(self, st):
        """A table's numbers, changed; with no table, none."""
        base = self.base(st, self.terms)
        term = f"stored_form table-{base} []" if base and self.terms[base][0] == "Meaning" else f"table-{base}" if base else "[]"
        for where, words in st.edits:
            what, *by = edit(where, words)
            if what == "set":
                term = f"set ({term}) {by[0]} {by[1]}"
            elif what == "cut":
                term = f"take {by[0]} ({term})"
            else:
                term = f"({term}) ++ {numbers(by[0])}"
        self.name(st, self.terms, ("List ℕ", term, [base] if base else []))

    # ---- sources

    def framed(self, st):
        """A statement's input, in its frame if it names one, and its other words."""
        words = st.words[1:]
        if words[:1] != ["in"]:
            return st.given, words
        if len(words) < 2 or words[1] not in self.frames:
            st.fail("no such frame")
        before, after = self.frames[words[1]]
        return before + st.given + after, words[2:]

    def compile(self, st):
        given, words = self.framed(st)
        self.compiled(st, given, options(st, words, ["lent"], ["area", "work"]))

    def compiled(self, st, given, chosen):
        row, no = self.row(st), source_refusal(st)
        area, work = chosen.get("area", ROOMY), chosen.get("work", len(given) + 64)
        if "lent" in chosen:
            self.lent(st, row, f"(compile_call {text(given)} (replicate {area} {FILLER}) (replicate {work} {FILLER}))", area, work)
        else:
            left = f"compile_of {text(given)} {area} {work}"
            row.theorems.append((left, f"refused {no[0]} {no[1]}" if no else f"granted ({meaning(*meaning_lines(st))})"))
            row.source = left, given.count(b"\n")
            row.parts = [] if no else list(meaning_parts(left, *meaning_lines(st)))

    def lent(self, st, row, call, area, work):
        """The whole call: its answers, and what the areas hold afterwards."""
        no = source_refusal(st)
        levels, items = ([], []) if no else meaning_lines(st)
        size = 0 if no else size_of(levels, items)
        for part, n in (("refusal", no[0] if no else 0), ("line", no[1] if no else 0), ("size", size)):
            row.theorems.append((f"{call}.{part}", str(n)))
        row.theorems.append((f"{call}.work", numbers([0] * work)))
        row.theorems.append((f"drop {size} {call}.area", numbers([FILLER] * (area - size))))
        if not no:
            row.theorems.append((f"accepted {call}.area", "true"))
            row.theorems.append((f"meaning_in {call}.area", meaning(levels, items)))

    def charmap(self, st):
        given, words = self.framed(st)
        chosen = options(st, words, ["lent"], ["area"])
        row, no = self.row(st), source_refusal(st)
        area, ns = chosen.get("area", 512), [] if no else area_lines(st.expected)
        if "lent" in chosen:
            n, line = no or (0, 0)
            after = numbers(ns + [FILLER] * (area - len(ns)))
            row.theorems.append((f"charmap_call {text(given)} (replicate {area} {FILLER})", f"record {{ refusal = {n}; line = {line}; area = {after} }}"))
        else:
            left = f"charmap_of {text(given)} {area}"
            row.theorems.append((left, f"refused {no[0]} {no[1]}" if no else f"granted {numbers(ns)}"))
            row.source = left, given.count(b"\n")
            row.parts = [] if no else list(area_parts(left, ns))

    def pairs(self, st):
        row, files = self.row(st), {}
        for part in FILES:
            named = st.files.get(part)
            if named and named not in self.sources:
                st.fail(f"no source {named}")
            files[part] = (self.sources[named] if named else b"") + bytes(st.inputs.get(part, b""))
        out = "".join(line + "\n" for where, line in st.expected).encode("ascii")
        row.theorems.append(("pairs_of " + " ".join(text(files[part]) for part in FILES), numbers(out)))

    # ---- the stored form of a table

    def part(self, st):
        """A row about a table that is given by its meaning, and that as a term."""
        if len(st.words) != 2 or self.terms.get(st.words[1], [None])[0] != "Meaning":
            st.fail(f"it is `{st.kind} TABLE`, with a table that is not damaged")
        row = self.row(st)
        row.uses.append(st.words[1])
        return row, f"table-{st.words[1]}"

    def stored(self, st):
        """A whole stored form, and the meaning that is read back from it, whatever follows."""
        row, term = self.part(st)
        ns = [n for where, line in st.expected for n in counted(st, line)]
        row.theorems.append((f"stored_form {term} []", numbers(ns)))
        row.theorems.append((f"meaning_in {numbers(ns + [FILLER])}", term))

    def of_items(self, st):
        """A part of a stored form that follows from the items."""
        row, term = self.part(st)
        row.theorems.append((f"{st.kind} ({term}).items", numbers(counted(st, st.one()))))

    ends = listing = starts = of_items

    def of_numbers(self, st):
        """A function of one number or two."""
        row, ns = self.row(st), counted(st, " ".join(st.words[1:]))
        if len(ns) != {"mask": 1, "doubled": 2}[st.kind]:
            st.fail("it is `mask ITEMS -> MASK`, or `doubled TIMES ITEMS -> NUMBER`")
        row.theorems.append((" ".join([st.kind, *map(str, ns)]), str(counted(st, st.one())[0])))

    mask = doubled = of_numbers

    def bucket(self, st):
        """The bucket of an item's characters, of so many items."""
        found, words = strings_in(st)
        if len(found) != 1 or len(words) != 2 or not words[1].isdigit():
            st.fail('it is `bucket ITEMS "characters" -> BUCKET`')
        self.row(st).theorems.append((f"bucket {words[1]} {string(found[0])}", str(counted(st, st.one())[0])))

    def along(self, st):
        """A list from another, with the number before its first."""
        m = re.fullmatch(r"\w+ (\d+) :(.*)", st.line)
        if not m:
            st.fail(f"it is `{st.kind} NUMBER : NUMBER ..  -> NUMBER ..`")
        left = f"{st.kind} {m.group(1)} {numbers(counted(st, m.group(2)))}"
        self.row(st).theorems.append((left, numbers(counted(st, st.one()))))

    sums = gaps = along

    # ---- calls on tables and maps

    def call(self, st, strings, other):
        """A call's row, its table or map as a term, its strings and its other words."""
        found, words = strings_in(st)
        if len(found) != strings or len(words) < 2 or not other and len(words) > 2 or words[1] not in self.terms:
            st.fail(f"`{st.kind}` has the name of a table or a map, and {strings} quoted strings")
        return *self.on(st, words[1]), [string(s) for s in found], words[2:]

    def on(self, st, name):
        """The row of a call on a named table or map, and that as a term."""
        row = self.row(st)
        row.uses.append(name)
        return row, f"(stored_form table-{name} [])" if self.terms[name][0] == "Meaning" else f"table-{name}"

    def answered(self, st, row, left, shape, parts):
        """A row whose answer is a record: its refusal, and parts that are 0 in a refusal and else stand in the expected line."""
        said = st.one()
        no, m = refusal(said), re.fullmatch(shape, said)
        if not (no and no[1] is None or m):
            st.fail(f"expected is `refused N`, or an answer of the shape {shape}")
        values = [0] * len(parts) if no else m.groups()
        row.theorems.append((left, f"record {{ refusal = {no[0] if no else 0}; " + "; ".join(p.format(v) for p, v in zip(parts, values)) + " }"))

    def compare(self, st):
        row, table, (a, b), _ = self.call(st, 2, False)
        no, m = refusal(st.one()), re.fullmatch(r"([<=>]) (\d+) (\d+)", st.one())
        if not (no or m):
            st.fail("expected is `< LEVEL AGREED` with `<`, `=` or `>`, or `refused N`")
        sign, level, agreed = m.groups() if m else ("=", 0, 0)
        answer = f"record {{ sign = {SIGNS[sign]}; level = {level}; agreed = {agreed} }}"
        row.theorems.append((f"compare_call {table} {a} {b}", f"record {{ refusal = {no[0] if no else 0}; answer = {answer} }}"))

    def keys(self, st):
        """Two keys, as bytes."""
        found, words = strings_in(st)
        if len(found) != 2 or words != ["keys"] or st.one() not in SIGNS:
            st.fail('it is `keys "key" "key" -> <` with `<`, `=` or `>`')
        self.row(st).theorems.append((f"sign_bytes {string(found[0])} {string(found[1])}", SIGNS[st.one()]))

    def step(self, st):
        row, table, (s,), words = self.call(st, 1, True)
        if len(words) != 1 or not words[0].isdigit():
            st.fail('it is `step TABLE "string" PLACE -> ITEM LENGTH`')
        self.answered(st, row, f"step_call {table} {s} {words[0]}", r"(\d+) (\d+)", ["place = {}", "size = {}"])

    def check(self, st):
        row, table, _, words = self.call(st, 0, False)
        parts = ["levels = {}", "items = {}", "size = {}"]
        self.answered(st, row, f"check_call {table}", r"(\d+) levels (\d+) items (\d+) numbers", parts)

    def area(self, st):
        row, area, _, words = self.call(st, 0, False)
        no = refusal(st.one())
        if not no and st.one() != "accepted":
            st.fail("expected is `accepted` or `refused 11`")
        row.theorems.append((f"area_call {area}", str(no[0] if no else 0)))

    def written(self, st, function):
        """A key, a decoding or an encoding into a room that held the filler."""
        row, term, (s,), words = self.call(st, 1, True)
        no = refusal(st.one())
        out = [] if no else hexes(st, st.one())
        room = options(st, words, [], ["room"]).get("room", len(out) + 2)
        after = numbers(out + [FILLER] * (room - len(out)))
        left = f"{function} {term} {s} (replicate {room} {FILLER})"
        row.theorems.append((left, f"record {{ refusal = {no[0] if no else 0}; size = {len(out)}; room = {after} }}"))

    def key(self, st):
        self.written(st, "key_call")

    def decode(self, st):
        self.written(st, "decode_call")

    def encode(self, st):
        self.written(st, "encode_call")

    def directory(self, st):
        """A page, its headings and topics given as strings or as places in a run, into a list that held the filler."""
        found = sections_in(st, ["run", "headings", "topics", "room"])
        said, room = found.pop(""), found.pop("room", None)
        if len(said) != 2 or said[1] not in self.terms or room and not (len(room) == 1 and room[0].isdigit()):
            st.fail("`directory` has the name of a table, and may have `run`, `headings`, `topics` and `room N`")
        run, parts = [], {}
        if "run" in found:
            if len(found["run"]) != 1 or not isinstance(found["run"][0], list):
                st.fail("a run is one string")
            run = found.pop("run")[0]
            parts = {which: places_in(st, words) for which, words in found.items()}
        else:
            for which, strings in found.items():
                parts[which] = []
                for s in strings:
                    if not isinstance(s, list):
                        st.fail("without a run, headings and topics are strings")
                    parts[which] += [length(run), length(s)]
                    run = run + s
        row, table = self.on(st, said[1])
        headings, topics = parts.get("headings", []), parts.get("topics", [])
        no = refusal(st.one())
        out = [] if no else counted(st, st.one())
        size = int(room[0]) if room else len(topics) // 2 + 2
        left = f"directory_call {table} {string(run)} {numbers(headings)} {numbers(topics)} (replicate {size} {FILLER})"
        row.theorems.append((left, f"record {{ refusal = {no[0] if no else 0}; list = {numbers(out + [FILLER] * (size - len(out)))} }}"))
