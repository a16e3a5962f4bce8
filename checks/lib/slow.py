"""Slow programs that do what tfmset does, written from the pages of docs/ alone, and random fonts and texts.

font_error follows docs/ERRORS.md, counts_text, list_text and pair_rows docs/OUTPUT.md, and set_line
docs/LIGATURES.md.
"""
import struct

from lib.tfm import BOUNDARY, LISTED, NAMES, Font, make, scaled

OPERATIONS = ("LIG", "LIG/", "/LIG", "/LIG/", None, "LIG/>", "/LIG>", "/LIG/>", None, None, None, "/LIG/>>")
TAGS = ("none", "lig", "list", "ext")


def random_font(chance):
    """A font with a random program: four letters, all eight operations, kerns, and sometimes boundaries."""
    letters = [97, 98, 99, 100]
    right, left = chance.choice([None, 99, 101]), chance.choice([False, True])
    program, starts = [(255, right, 0, 0) if right is not None else (129, 0, 0, 0)], []
    waits = letters + [right] * 2 if right is not None else letters
    for _ in range(5):
        starts.append(len(program))
        for turn in range(3):
            skip = 128 if turn == 2 else 0
            if chance.randrange(3) == 0:
                program.append((skip, chance.choice(waits), 128, chance.randrange(3)))
            else:
                program.append((skip, chance.choice(waits), chance.choice(LISTED), chance.choice(letters)))
    if left:
        program.append((255, 0, 0, starts[4]))
    infos = [(1 + i, 0, tag, starts[i] if tag else 0) for i, tag in enumerate(chance.choice([0, 1, 1]) for _ in range(4))]
    widths = (0, 524288, 262144, 786432, 300000)
    return make(infos, widths, program, (-65536, 32768, 0), (0, 349525, 1, 2, 3, 4, 5))


def rich_font(chance):
    """A random font with all parts: characters with every tag, recipes, long headers, and any words."""
    def words(least, most, wild=0.02):
        return [chance.randrange(-2**31, 2**31) if chance.random() < wild else chance.randrange(-2**22, 2**22)
                for _ in range(chance.randint(least, most))]

    first, count, nl, nk = chance.randrange(30, 100), chance.randrange(12), chance.randrange(12), chance.randrange(4)
    widths, heights, depths, italics = ([0, *words(0, 4, 0.01)] for _ in range(4))
    infos = [(chance.randrange(len(widths)), 16 * chance.randrange(len(heights)) + chance.randrange(len(depths)),
              4 * chance.randrange(len(italics)) + chance.randrange(4), chance.randrange(max(nl, 1)))
             for _ in range(count)]
    codes = [first + i for i, info in enumerate(infos) if info[0]] or [first]
    program = []
    for i in range(nl):
        ahead = nl - i - 1
        skip = chance.choice([128, 128, chance.randrange(ahead) if ahead else 128, chance.choice([200, 255])])
        if skip > 128:
            program.append((skip, chance.choice(codes), 0, chance.randrange(nl)))
        elif nk and chance.randrange(2):
            program.append((skip, chance.choice(codes), 128, chance.randrange(nk)))
        else:
            program.append((skip, chance.choice(codes), chance.choice([*LISTED, 4, 8, 77]), chance.choice(codes)))
    header = chance.randbytes(4 * chance.choice([0, 0, 3, 10, 14, 15, 16, 20]))
    exten = [chance.randbytes(4) for _ in range(chance.randrange(3))]
    return make(infos, widths, program, words(nk, nk), words(0, 9), first, chance.randrange(1, 40), exten, header,
                heights, depths, italics)


def damage(font, chance):
    """A font with some changed bytes or counts, or cut, or with bytes after its end."""
    kind = chance.randrange(4)
    if kind == 0:
        return font[:chance.randrange(len(font))]
    if kind == 1:
        return font + chance.randbytes(chance.randrange(1, 9))
    font, last = bytearray(font), 24 if kind == 2 else len(font)
    for _ in range(chance.randint(1, 3)):
        font[chance.randrange(last)] = chance.choice([0, 1, 2, 127, 128, 255, chance.randrange(256)])
    return bytes(font)


# Errors of fonts.

def count_error(data):
    """The first of the errors 1 to 9 of a font, or None."""
    if len(data) < 24:
        return "1 truncated, 24 bytes needed"
    counts = dict(zip(NAMES, struct.unpack(">12H", data[:24])))
    for name, count in counts.items():
        if count >= 32768:
            return f"2 count {name} out of range"
    if counts["bc"] > counts["ec"] + 1 or counts["ec"] > 255:
        return "3 character range"
    if counts["lh"] < 2:
        return "4 header too short"
    for name, table in (("nw", "width"), ("nh", "height"), ("nd", "depth"), ("ni", "italic")):
        if counts[name] == 0:
            return f"5 table {table} is empty"
    if counts["ne"] > 256:
        return "6 more than 256 recipes"
    lf, lh, bc, ec, *others = counts.values()
    if lf != 6 + lh + ec + 1 - bc + sum(others):
        return "7 length equation"
    if len(data) < 4 * lf:
        return f"8 truncated, {4 * lf} bytes needed"
    return "9 design size" if struct.unpack(">i", data[28:32])[0] < 2**20 else None


def index_error(font):
    """Error 10 or 11."""
    tables = ("width", "height", "depth", "italic")
    for code, info in font.infos.items():
        for table, index in zip(tables, (info[0], info[1] // 16, info[1] % 16, info[2] // 4)):
            if index >= font.lengths[table]:
                return f"10 character {code}, table {table}"
    for code, info in font.infos.items():
        if info[2] % 4 == 1 and info[3] >= len(font.program):
            return f"11 character {code}, program start"
    return None


def dimension_error(font):
    """Error 12 of all tables, and then error 13."""
    for table in ("width", "height", "depth", "italic"):
        if font.fixes(table)[0]:
            return f"12 table {table}, first entry"
    for table in ("width", "height", "depth", "italic", "kern", "param"):
        for i, fix in enumerate(font.fixes(table)):
            if not -2**24 <= fix < 2**24 and (table, i) != ("param", 0):
                return f"13 table {table}, entry {i + 1 if table == 'param' else i}"
    return None


def program_error(font):
    """Error 14."""
    for i, (skip, following, op, rest) in enumerate(font.program):
        wrong = None
        if skip > 128:
            wrong = "restart" if 256 * op + rest >= len(font.program) else None
        elif following not in font.codes and following != font.right:
            wrong = "next"
        elif op < 128 and rest not in font.codes:
            wrong = "ligature"
        elif op >= 128 and 256 * (op - 128) + rest >= font.lengths["kern"]:
            wrong = "kern"
        elif skip < 128 and i + skip + 1 >= len(font.program):
            wrong = "skip"
        if wrong:
            return f"14 instruction {i}, {wrong}"
    return None


def font_error(data):
    """The first error of a font, or None."""
    wrong = count_error(data)
    for check in (index_error, dimension_error, program_error):
        wrong = wrong or check(Font(data))
    return wrong


# Counts and listings.

def counts_text(data):
    counts = struct.unpack(">12H", data[:24])
    design = struct.unpack(">i", data[28:32])[0] // 16
    return "".join(f"{name} {count}\n" for name, count in zip(NAMES, counts)) + f"design {design}\n"


def escaped(data, most):
    """A string of the header: a byte with its length, and then its bytes."""
    return "".join(chr(byte) if 32 <= byte <= 126 and byte != 92 else f"\\x{byte:02x}"
                   for byte in data[1:1 + min(data[0], most)])


def list_text(data, everything=False):
    """What `list` or `list --all` prints of a font without an error."""
    font, header = Font(data), data[24:]
    lh, size = font.counts[1], struct.unpack(">i", data[28:32])[0] // 16
    tables = {name: [scaled(fix, size) for fix in font.fixes(name)]
              for name in ("width", "height", "depth", "italic", "kern")}
    out = [f"checksum {int.from_bytes(header[:4], 'big')}", f"design {size}", f"size {size}"]
    if lh >= 12:
        out.append("coding " + escaped(header[8:48], 39))
    if lh >= 17:
        out.append("family " + escaped(header[48:68], 19))
    if lh >= 18:
        out += [f"sevenbit {'yes' if header[68] >= 128 else 'no'}", f"face {header[71]}"]
    out += [f"{name} {'none' if value is None else value}" for name, value in (("right", font.right), ("left", font.left))]
    for code in font.codes:
        info = font.infos[code]
        indices = zip(("width", "height", "depth", "italic"), (info[0], info[1] // 16, info[1] % 16, info[2] // 4))
        row = "".join(f" {name} {tables[name][index]}" for name, index in indices)
        out.append(f"char {code}{row} tag {TAGS[info[2] % 4]}" + (f" {info[3]}" if info[2] % 4 else ""))
    for i, (skip, following, op, rest) in enumerate(font.program):
        number = 256 * (op - 128) + rest
        action = (f"goto {256 * op + rest}" if skip > 128 else f"KRN {number} {tables['kern'][number]}" if op >= 128
                  else f"{OPERATIONS[op if op in LISTED else 0]} {rest}")
        out.append(f"step {i} skip {skip} next {following} {action}")
    out += [f"kern {i} {amount}" for i, amount in enumerate(tables["kern"])]
    out += [f"param {i + 1} {scaled(fix, size) if i else fix}" for i, fix in enumerate(font.fixes("param"))]
    text = "".join(line + "\n" for line in out)
    if everything:
        pieces = ("recipe {} top {} mid {} bot {} rep {}\n".format(i, *four) for i, four in enumerate(font.recipes))
        words = (f"word {i} {data[4 * i:4 * i + 4].hex()}\n" for i in range(font.words))
        text = counts_text(data).rpartition("design")[0] + text + "".join(pieces) + "".join(words)
    return text


def pair_rows(data, size):
    """The fields of each pair that has an action, in order: left, right, action and value."""
    font = Font(data)
    kerns, codes = [scaled(fix, size) for fix in font.fixes("kern")], [(code, code) for code in font.codes]
    for left, before in [("left", BOUNDARY), *codes]:
        for right, after in [*codes, ("right", BOUNDARY)]:
            op, rest = font.act(before, after) or (0, None)
            if rest is not None:
                yield [left, right, *(("kern", kerns[256 * (op - 128) + rest]) if op >= 128
                                      else (OPERATIONS[op if op in LISTED else 0], rest))]


def pairs_text(data):
    """What `pairs` prints of a font without an error."""
    size = struct.unpack(">i", data[28:32])[0] // 16
    return "".join(" ".join(map(str, row)) + "\n" for row in pair_rows(data, size))


# Lines.

class TooManySteps(Exception):
    """A run takes more steps than the limit."""


class Setter:
    """Sets lines with a font: the limit, and whether missing characters are skipped."""

    def __init__(self, data, size, limit, skip):
        self.font, self.limit, self.skip = Font(data), limit, skip
        self.size = size or struct.unpack(">i", data[28:32])[0] // 16
        self.widths, self.kerns = ([scaled(fix, self.size) for fix in self.font.fixes(name)] for name in ("width", "kern"))
        params = self.font.fixes("param")
        self.space = scaled(params[1], self.size) if len(params) > 1 else 0

    def line(self, line):
        """The result of a line: ("set", items, steps), or ("refused", reason, numbers)."""
        if len(line) > 65535:
            return "refused", "too-long", [len(line)]
        missing = [i for i, code in enumerate(line) if code != 32 and code not in self.font.codes]
        if missing and not self.skip:
            return "refused", "missing", [missing[0], line[missing[0]]]
        self.steps, items, run = 0, [], []
        try:
            for i, code in enumerate(line):
                if code != 32 and i not in missing:
                    run.append(code)
                    continue
                items += self.run(run, code == 32) + [("s", self.space) if code == 32 else ("m", code)]
                run = []
            items += self.run(run, True)
        except TooManySteps:
            return "refused", "steps", [self.limit]
        return "set", items, self.steps

    def span(self, text, offset, length, edges, hyphen):
        """The result of a span: ("set", items with their places, steps), or ("refused", reason, numbers)."""
        end, self.steps = offset + length, 0
        if end > len(text):
            return "refused", "outside", []
        if length > 65535:
            return "refused", "too-long", [length]
        run = [(code, at, at + 1) for at, code in enumerate(text[offset:end], offset)]
        run += [(hyphen, end, end)] * (hyphen < BOUNDARY)
        missing = [(at, code) for code, at, _ in run if code not in self.font.codes]
        if missing:
            return "refused", "missing", list(missing[0])
        left, right = [(BOUNDARY, offset, offset)] * (edges % 2), [(-1, end, end)] * (edges > 1 and self.font.right is not None)
        try:
            return "set", self.walk(left + run + right), self.steps
        except TooManySteps:
            return "refused", "steps", [self.limit]

    def run(self, codes, has_right):
        """The items of a run of a line."""
        if not codes:
            return []
        right = [-1] if has_right and self.font.right is not None else []
        return [item for item, _, _ in self.walk([(code, 0, 0) for code in [BOUNDARY, *codes, *right]])]

    def walk(self, elements):
        """The items of a list of elements with a cursor; elements and items have the start and the end of their bytes."""
        at = 0
        while at < len(elements) - 1:
            self.steps += 1
            if self.steps > self.limit:
                raise TooManySteps
            (left, *place), (following, *after) = elements[at:at + 2]
            op, rest = self.font.act(left, BOUNDARY if following == -1 else following) or (None, None)
            if op is None:
                at += 1
            elif op >= 128:
                elements.insert(at + 1, (("k", self.kerns[256 * (op - 128) + rest]), after[0], after[0]))
                at += 2
            else:
                op = op if op in LISTED else 0
                gone = [place] * (op // 2 % 2 == 0) + [after] * (op % 2 == 0) or [[after[0], after[0]]]
                elements[at:at + 2] = (elements[at:at + 1] * (op // 2 % 2) + [(rest, gone[0][0], gone[-1][1])]
                                       + elements[at + 1:at + 2] * (op % 2))
                at += op // 4
        return [(one if isinstance(one, tuple) else ("c", one, self.widths[self.font.infos[one][0]]), *place)
                for one, *place in elements if one not in (BOUNDARY, -1)]


def record(source, number, result, form):
    """A record in record format 1, 2 or json."""
    kind, first, last = result
    if kind == "refused":
        names = {"too-long": ("bytes",), "missing": ("offset", "code"), "steps": ("limit",)}[first]
        if form == "json":
            rest = "".join(f',"{name}":{value}' for name, value in zip(names, last))
            return f'{{"source":{source},"line":{number},"refused":"{first}"{rest}}}\n'
        return f"{source}:{number} refused {first} {' '.join(map(str, last))}\n"
    width = sum(item[-1] for item in first if item[0] != "m")
    if form == "json":
        items = ",".join('["%s",%s]' % (item[0], ",".join(map(str, item[1:]))) for item in first)
        return f'{{"source":{source},"line":{number},"width":{width},"steps":{last},"items":[{items}]}}\n'
    items = "".join(f" c{item[1]}={item[2]}" if item[0] == "c" else f" {item[0]}{item[1]}" for item in first)
    return f"{source}:{number} set {width}{f' steps {last}' if form == '2' else ''}{items}\n"


def source_text(source, text, setter, form):
    """The records and the end line of a source, and whether a line was refused."""
    lines = text.split(b"\n")
    lines = lines[:-1] if not lines[-1] else lines
    results = [setter.line(line) for line in lines]
    out = "".join(record(source, number, result, form) for number, result in enumerate(results, 1))
    end = (f'{{"source":{source},"end":"complete","lines":{len(lines)}}}\n' if form == "json"
           else f"{source} end complete {len(lines)}\n")
    return out + end, any(result[0] == "refused" for result in results)
