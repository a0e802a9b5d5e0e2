"""vectors.py: reads a file of vectors into its statements, with their inputs and what is expected of them. README.md has the format."""
import re

DEFINING = "frame source table map damaged".split()  # statements that name something, in the order in which they may use one another
CALLS = "compile charmap pairs compare key keys step check area decode encode directory".split()  # rows about what is called
PARTS = "stored ends listing starts mask doubled bucket sums gaps".split()  # rows about the stored form of a table
ROWS = CALLS + PARTS  # statements that are rows
FILES = "locale charmap input".split()  # the inputs of the pairs program
EDITS = "set cut add".split()  # what changes the numbers of a damaged table or a map
NO_CODE = 0x110000  # a charmap's number for a byte with no code
RULES = {"forward": (False, False), "backward": (True, False), "forward,position": (False, True), "backward,position": (True, True)}


class Malformed(Exception):
    """A vector file that cannot be read: its place, and why."""

    def __init__(self, where, what):
        super().__init__(f"{where}: {what}")


class Statement:
    """A statement: its place (file, line), its block's name, its line, its input bytes by section, its edits, and what is expected."""

    def __init__(self, place, name, line):
        self.place, self.name, self.line, self.words = place, name, line, line.split()
        self.inputs, self.section = {"": bytearray()}, ""
        self.split = None  # in a frame: how many bytes stand before the place `@`
        self.files = {}  # in pairs: the named source of a section
        self.edits, self.expected = [], []

    @property
    def kind(self):
        return self.words[0]

    @property
    def where(self):
        return "%s:%d" % self.place

    @property
    def given(self):
        return bytes(self.inputs[""])

    def fail(self, what):
        raise Malformed(self.where, what)

    def one(self):
        """The one line that is expected."""
        if len(self.expected) != 1:
            self.fail("one line is expected of it: `-> ..`")
        return self.expected[0][1]


# ---------------------------------------------------------------- lines of a file


def statements(path, shown):
    """The statements of a file, which messages call `shown`."""
    block, found = None, []
    for number, line in enumerate(path.read_text(encoding="utf-8").split("\n"), 1):
        if not line.strip() or line.startswith("#"):
            continue
        if line.startswith("== "):
            block = line[3:].strip()
            last = None
        elif block is None:
            raise Malformed(f"{shown}:{number}", "a block opens with `== name`")
        elif line.split()[0] in DEFINING + ROWS and not (last and last.kind == "pairs" and not last.expected):
            head, expected = cut_at_arrow(line)
            last = Statement((str(shown), number), block, head)
            if expected is not None:
                last.expected.append((last.where, expected))
            found.append(last)
        elif last is None:
            raise Malformed(f"{shown}:{number}", f"not a statement: {line}")
        else:
            add_line(last, f"{shown}:{number}", line)
    return found


def add_line(st, where, line):
    """A line that belongs to a statement."""
    words = line.split()
    if line.startswith("->"):
        st.expected.append((where, line[2:].strip()))
    elif line.startswith("|"):
        if st.expected:
            raise Malformed(where, "input after what is expected")
        st.inputs[st.section] += input_line(where, line)
    elif line == "@" and st.kind == "frame" and st.split is None:
        st.split = len(st.given)
    elif st.kind == "pairs" and words[0] in FILES and words[0] not in st.inputs and len(words) <= 2:
        st.section = words[0]
        st.inputs[st.section] = bytearray()
        if len(words) == 2:
            st.files[st.section] = words[1]
    elif st.kind in ("damaged", "map") and words[0] in EDITS:
        st.edits.append((where, words))
    else:
        raise Malformed(where, f"not a line of a vector: {line}")


def input_line(where, line):
    """The bytes of `| text` (with LF), `|- text` (without) or `|x 41 FF *9` (in hex, repeated)."""
    if line in ("|", "|-"):
        return b"\n" if line == "|" else b""
    if line.startswith("|x "):
        codes, star, times = line[3:].partition("*")
        if not re.fullmatch(r"( *[0-9A-F]{2})+ *", codes) or star and not times.isdigit():
            raise Malformed(where, "`|x` has bytes of two hex digits, and `*N` at its end where they are repeated")
        return bytes.fromhex(codes) * int(times or 1)
    m = re.fullmatch(r"\|(-?) ([ -~]*[!-~])", line)
    if not m:
        raise Malformed(where, "input is `| text`, `|- text` or `|x hex`; a byte outside 20 to 7E, and a blank at the end, is written with |x")
    return m.group(2).encode("ascii") + (b"" if m.group(1) else b"\n")


STRING = r'"((?:[^"\\]|\\.)*)"(?:\*(\d+))?'


def cut_at_arrow(line):
    """A statement's line before its arrow, and what stands after it or None. An arrow in quotes is none."""
    m = re.match(rf'((?:{STRING}|(?! -> ).)*) -> (.*)$', line)
    return (m.group(1), m.groups()[-1].strip()) if m else (line, None)


# ---------------------------------------------------------------- strings and numbers


def strings_in(st):
    """The quoted strings of a statement, each as pieces (numbers, how often), and its other words. `+` joins pieces to one string."""
    strings, rest, at = [], "", 0
    for m in re.finditer(STRING, st.line):
        between = st.line[at : m.start()]
        if not (strings and between.strip() == "+"):
            strings.append([])
            rest += between
        strings[-1].append((codes_of(st, m.group(1)), int(m.group(2) or 1)))
        at = m.end()
    return strings, (rest + st.line[at:]).split()


def sections_in(st, names):
    """{name: what follows it in a statement's line}, of the words `names`, and of "" what stands before them: lists of words, `,` being one, and
    of strings as pieces."""
    found = {"": []}
    last = found[""]
    for m in re.finditer(rf'{STRING}|,|[^\s,"]+', st.line):
        if m.group(1) is not None:
            piece = (codes_of(st, m.group(1)), int(m.group(2) or 1))
            if len(last) > 1 and last[-1] == "+" and isinstance(last[-2], list):
                last.pop()
                last[-1].append(piece)
            else:
                last.append([piece])
        elif m.group(0) in names and m.group(0) not in found:
            last = found[m.group(0)] = []
        else:
            last.append(m.group(0))
    return found


def places_in(st, words):
    """The starts and lengths of `0 1, 1 1 *3, 9`: a pair may be repeated, and the last may be a start alone."""
    found, said = [], " ".join(words)
    for k, part in enumerate(said.split(",") if words else []):
        m = re.fullmatch(r" ?(\d+)(?: (\d+)(?: \*(\d+))?)? ?", part)
        if not m or m.group(2) is None and k < said.count(","):
            st.fail(f"not starts and lengths: {said}")
        found += [int(n) for n in m.groups()[:2] if n is not None] * int(m.group(3) or 1)
    return found


def counted(st, said):
    """Numbers between blanks, decimal or hex after 0x, `1*1000` for one repeated; `nothing` for none."""
    if said == "nothing":
        return []
    found = []
    for word in said.split():
        m = re.fullmatch(r"(\d|[1-9]\d+|0x[0-9A-F]+)(?:\*(\d+))?", word)
        if not m:
            st.fail(f"not numbers: {said}")
        found += [int(m.group(1), 0)] * int(m.group(2) or 1)
    return found


def codes_of(st, quoted):
    """The numbers of a quoted text: its characters, `\\u{hex}` for any number, `\\\\` and `\\"`."""
    found = re.findall(r'\\u\{([0-9A-Fa-f]+)\}|\\(["\\])|([^\\])', quoted)
    if sum(len(a) + 4 if a else len(b) + 1 if b else 1 for a, b, c in found) != len(quoted):
        st.fail(f'an escape in a string is \\u{{hex}}, \\\\ or \\": {quoted}')
    return [int(a, 16) if a else ord(b or c) for a, b, c in found]


def hexes(st, said):
    """Numbers in hex between blanks; `nothing` for none."""
    if said == "nothing":
        return []
    if not re.fullmatch(r"[0-9A-F]+( [0-9A-F]+)*", said):
        st.fail(f"not numbers in hex: {said}")
    return [int(w, 16) for w in said.split()]


def options(st, words, flags, numbers):
    """The words of a statement as a dictionary: flags, and words with a number after them."""
    found, at = {}, 0
    while at < len(words):
        if words[at] in flags:
            found[words[at]] = True
            at += 1
        elif words[at] in numbers and at + 1 < len(words) and words[at + 1].isdigit():
            found[words[at]] = int(words[at + 1])
            at += 2
        else:
            st.fail(f"unknown word: {words[at]}")
    return found


# ---------------------------------------------------------------- what is expected


def refusal(said):
    """(number, line) of `refused N line L`, (number, None) of `refused N`, or None."""
    m = re.fullmatch(r"refused (\d+)(?: line (\d+))?", said)
    return (int(m.group(1)), None if m.group(2) is None else int(m.group(2))) if m else None


def source_refusal(st):
    """The refusal expected of a source, or None. It has its line, and nothing else is expected."""
    no = refusal(st.expected[0][1])
    if no and (no[1] is None or len(st.expected) > 1):
        st.fail("the refusal of a source is one line, `refused N line L`")
    return no


def meaning_lines(st):
    """(levels, items) of the lines `levels RULE;RULE` and `characters : weights ; weights`."""
    if not st.expected or not st.expected[0][1].startswith("levels "):
        st.fail("expected is `refused N line L`, or `levels ..` and then the items")
    levels = []
    for rule in st.expected[0][1][7:].replace(" ", "").split(";"):
        rule, star, times = rule.partition("*")
        if rule not in RULES or star and not times.isdigit():
            st.fail(f"no rule: {rule}")
        levels += [RULES[rule]] * int(times or 1)
    return levels, [item_line(where, line) for where, line in st.expected[1:]]


def item_line(where, line):
    """(characters, weights of each level) of an item's line."""
    m = re.fullmatch(r"(UNDEFINED|[0-9A-F]+(?: [0-9A-F]+)*) :((?: -| \d+( \d+)*)(?: ;(?: -|(?: \d+)+))*)", line)
    if not m:
        raise Malformed(where, "an item is `characters : weights ; weights`, with `UNDEFINED` for its characters and `-` for no weight")
    codes = [] if m.group(1) == "UNDEFINED" else [int(w, 16) for w in m.group(1).split()]
    return codes, [[int(w) for w in part.split() if w != "-"] for part in m.group(2).split(";")]


def area_lines(lines):
    """The 512 numbers of the lines `41 = 0041 *` and `41..43 = 0041 *`, or `nothing`."""
    codes, ones = [NO_CODE] * 256, [0] * 256
    if [line for where, line in lines] == ["nothing"]:
        return codes + ones
    for where, line in lines:
        m = re.fullmatch(r"([0-9A-F]{2})(?:\.\.([0-9A-F]{2}))? = ([0-9A-F]{4,6})( \*)?", line)
        if not m:
            raise Malformed(where, "a byte is `41 = 0041 *` or `41..43 = 0041 *`, with the star where it encodes")
        first, last, code = int(m.group(1), 16), int(m.group(2) or m.group(1), 16), int(m.group(3), 16)
        for b in range(first, last + 1):
            codes[b], ones[b] = code + b - first, 1 if m.group(4) else 0
    return codes + ones


def edit(where, words):
    """An edit: ("set", place, number), ("cut", count) or ("add", numbers); decimal, or hex after 0x."""
    try:
        if words[0] == "set" and len(words) == 4 and words[2] == "=":
            return "set", int(words[1], 0), int(words[3], 0)
        if words[0] == "cut" and len(words) == 2:
            return "cut", int(words[1], 0)
        if words[0] == "add" and len(words) > 1:
            return "add", [int(w, 0) for w in words[1:]]
    except ValueError:
        pass
    raise Malformed(where, "an edit is `set PLACE = NUMBER`, `cut COUNT` or `add NUMBER ..`")
