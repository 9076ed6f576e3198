#!/usr/bin/env python3
"""A second program for bundles, read off docs/BUNDLE.md and sharing nothing with the first.

    bundle_model.py answers FILE     write the answers to a bundle; status 1 if a line is malformed
    bundle_model.py stored           write the stored run of the program, crates/ask/stdin and stdout,
                                     and examples/three-stations.answers
    bundle_model.py random ASK N     compare ASK with this program on N random bundles
"""
import os
import random
import subprocess
import sys

HERE = os.path.dirname(os.path.dirname(os.path.abspath(__file__)))
LARGEST = 2**64 - 1
ABSENT = 2**32 - 1
CAPACITY = 512
BLANKS = b" \t\r"
WORDS = {
    11: "the date is outside -17179869184 to 17179869183",
    12: "the generation is above 1073741823",
    13: "there are more than 16 parents",
    14: "the id is already held",
    15: "a parent is not a place in the history",
    16: "a parent's generation exceeds the commit's",
    17: "the history is full",
}
AN_ID = "an id of 40 hexadecimal digits"
A_WORD = "commit, name, count, capacity, find, read, parent, merge-base, octopus or describe"
A_GENERATION = "a generation, which is a number or -"
A_DATE = "a date, which is a number, with - before it if negative"
A_PARENT = "a parent, which is an id of 40 hexadecimal digits, or @ and a place"
A_NAME = "a name"
A_PLACE = "a place, which is a number"
A_NUMBER = "a number"
AN_OPTION = "--candidates=N, --always or --first-parent"
THE_END = "the end of the line"


class Malformed(Exception):
    pass


def number(text):
    if not text or any(b not in b"0123456789" for b in text):
        return None
    return min(int(text), LARGEST)


def identity(text):
    return text.decode() if len(text) == 40 and all(b in b"0123456789abcdef" for b in text) else None


def generation(text):
    if text == b"-":
        return "absent"
    return number(text)


def date(text):
    if text[:1] == b"-":
        size = number(text[1:])
        return None if size is None else -size
    return number(text)


def parent(text):
    if text[:1] == b"@":
        place = number(text[1:])
        return None if place is None else ("place", place)
    held = identity(text)
    return None if held is None else ("id", held)


def option(text):
    limit = text[:13] == b"--candidates=" and number(text[13:]) is not None
    return True if text in (b"--always", b"--first-parent") or limit else None


class Line:
    """The fields of a line, read from left to right."""

    def __init__(self, line):
        self.fields = [f for f in line.replace(b"\t", b" ").replace(b"\r", b" ").split(b" ") if f]
        self.at = 0

    def fail(self, expected):
        if self.at < len(self.fields):
            text = self.fields[self.at]
            shown = b'"' + (text if len(text) <= 60 else text[:60] + b"...") + b'"'
        else:
            shown = b"nothing"
        raise Malformed(b"malformed: field %d: expected %s, found %s" % (self.at + 1, expected.encode(), shown))

    def take(self, reader, expected):
        value = reader(self.fields[self.at]) if self.at < len(self.fields) else None
        if value is None:
            self.fail(expected)
        self.at += 1
        return value

    def rest(self, reader, expected):
        values = []
        while self.at < len(self.fields):
            values.append(self.take(reader, expected))
        return values

    def end(self):
        if self.at < len(self.fields):
            self.fail(THE_END)


class History:
    def __init__(self):
        self.commits = []
        self.tally = dict(taken=0, refused=0, answered=0, malformed=0)

    def find(self, held):
        return next((p for p, c in enumerate(self.commits) if c[0] == held), None)

    def refusal(self, held, gen, when, places):
        rank = lambda g: ABSENT if g == "absent" else g
        count = len(self.commits)
        if not -17179869184 <= when <= 17179869183:
            return 11
        if gen != "absent" and gen > 1073741823:
            return 12
        if len(places) > 16:
            return 13
        if self.find(held) is not None:
            return 14
        if any(p >= count for p in places):
            return 15
        if any(rank(self.commits[p][1]) > rank(gen) for p in places):
            return 16
        return 17 if count == CAPACITY else None

    def place(self, which):
        kind, value = which
        if kind == "place":
            return value
        found = self.find(value)
        return LARGEST if found is None else found

    def commit(self, line):
        held = line.take(identity, AN_ID)
        gen = line.take(generation, A_GENERATION)
        when = line.take(date, A_DATE)
        places = [self.place(p) for p in line.rest(parent, A_PARENT)]
        why = self.refusal(held, gen, when, places)
        if why is not None:
            self.tally["refused"] += 1
            return "refused %d: %s" % (why, WORDS[why])
        self.commits.append((held, gen, when, places))
        self.tally["taken"] += 1
        return "place %d" % (len(self.commits) - 1)

    def question(self, word, line):
        shown = lambda place: "none" if place is None else "place %d" % place
        if word == b"name":
            line.take(identity, AN_ID)
            line.take(lambda text: text, A_NAME)
            line.end()
            return "kept"
        if word == b"count":
            line.end()
            return str(len(self.commits))
        if word == b"capacity":
            line.end()
            return str(CAPACITY)
        if word == b"find":
            held = line.take(identity, AN_ID)
            line.end()
            return shown(self.find(held))
        if word == b"read":
            place = line.take(number, A_PLACE)
            line.end()
            if place >= len(self.commits):
                return "none"
            held, gen, when, parents = self.commits[place]
            return "%s %s %d %d" % (held, "-" if gen == "absent" else gen, when, len(parents))
        if word == b"parent":
            place = line.take(number, A_PLACE)
            nth = line.take(number, A_NUMBER)
            line.end()
            if place >= len(self.commits) or nth >= len(self.commits[place][3]):
                return "none"
            return shown(self.commits[place][3][nth])
        if word == b"describe":
            line.take(identity, AN_ID)
            line.rest(option, AN_OPTION)
        else:
            line.take(identity, AN_ID)
            line.rest(identity, AN_ID)
        return "not yet"

    def reply(self, text):
        line = Line(text)
        known = A_WORD.encode().replace(b" or ", b", ").split(b", ")
        try:
            word = line.take(lambda t: t if t in known else None, A_WORD)
            if word == b"commit":
                return self.commit(line).encode()
            answer = self.question(word, line).encode()
        except Malformed as why:
            self.tally["malformed"] += 1
            return why.args[0]
        self.tally["answered"] += 1
        return answer


def answers(text):
    """The answers to a bundle, and whether no line of it is malformed."""
    history = History()
    out = []
    for line in text.split(b"\n"):
        line = line.strip(BLANKS)
        if line and line[:1] != b"#":
            out.append(line + b" -> " + history.reply(line))
    t = history.tally
    out.append(
        b"# %d commits taken in, %d refused, %d questions answered, %d malformed"
        % (t["taken"], t["refused"], t["answered"], t["malformed"])
    )
    return b"".join(line + b"\n" for line in out), t["malformed"] == 0


def limits():
    """The lines of the stored run that come after the story: every limit, and the order of the refusals."""
    lines = []
    say = lines.append
    serial = [0]

    def fresh():
        serial[0] += 1
        return "d%039x" % serial[0]

    say("# Dates run from -17179869184 to 17179869183.")
    for when in ("17179869183", "17179869184", "-17179869184", "-17179869185", "0", "-0", "9" * 30, "-" + "9" * 30):
        say("commit %s - %s @0" % (fresh(), when))
    say("# Generations run to 1073741823; none at all counts as more than any.")
    top = fresh()
    say("commit %s 1073741823 0" % top)
    for high in ("1073741824", "4294967295", "4294967296", "1" * 30):
        say("commit %s %s 0" % (fresh(), high))
    low = fresh()
    say("commit %s 7 0" % low)
    say("commit %s 7 0 %s" % (fresh(), low))
    say("commit %s 6 0 %s" % (fresh(), low))
    say("commit %s 1073741823 0 @0" % fresh())
    say("commit %s - 0 %s %s" % (fresh(), low, top))
    say("# Sixteen parents pass, in any order and with repeats, by place and by id.")
    many = fresh()
    say("commit %s - 5 @0 @1 @2 @3 @0 @0 %s %s @5 @4 @3 @2 @1 @0 @1 @2" % (many, low, top))
    say("read 15")
    for nth in (0, 6, 7, 15, 16):
        say("parent 15 %d" % nth)
    say("commit %s - 5 %s" % (fresh(), " ".join(["@0"] * 17)))
    say("commit %s - 5 %s" % (fresh(), " ".join(["@0"] * 40)))
    say("# Parents are places of the history.")
    say("count")
    say("commit %s - 5 @16" % fresh())
    say("commit %s - 5 @15 @%s" % (fresh(), "1" * 30))
    say("commit %s - 5 %s" % (fresh(), fresh()))
    say("commit %s - 5 @15" % fresh())
    say("# Where several refusals apply, the lowest is given.")
    say("commit %s 1073741824 17179869184" % fresh())
    say("commit %s 1073741824 0 %s" % (fresh(), " ".join(["@0"] * 17)))
    say("commit %s - 0 %s" % (top, " ".join(["@0"] * 17)))
    say("commit %s - 0 @999" % top)
    say("commit %s 6 0 %s @999" % (fresh(), low))
    say("commit %s 1073741824 17179869184 %s @999" % (top, " ".join(["@0"] * 17)))
    say("# Numbers of any length, blanks of every kind, and questions beyond the list.")
    for place in ("0", "000", "16", "17", "18446744073709551615", "18446744073709551616", "9" * 30):
        say("read %s" % place)
    say("parent 15 %s" % ("9" * 30))
    say("parent %s 0" % ("9" * 30))
    say("\t find \t %s \r" % top)
    say("find %s" % fresh())
    say("   # a comment after blanks")
    say("")
    say(" \t\r")
    say("name %s #7" % top)
    say("merge-base %s" % top)
    say("octopus %s" % top)
    say("octopus %s %s %s" % (top, low, fresh()))
    say("describe %s --first-parent --candidates=%s" % (top, "9" * 30))
    say("# The history fills up: 512 commits pass, and one more does not.")
    return lines, fresh, low, top


def filling(story):
    lines, fresh, low, top = limits()
    held = lambda: int(answers((story + "\n".join(lines + ["count"])).encode())[0].split(b"\n")[-3].split(b"-> ")[1])
    missing = CAPACITY - held()
    for i in range(missing):
        lines.append("commit %s - %d @%d" % (fresh(), i, CAPACITY - missing + i - 1))
        if i >= missing - 2:
            lines.append("count")
    lines.append("commit %s - 0 @511" % fresh())
    lines.append("commit %s - 0" % fresh())
    lines.append("# A rising generation comes before that, and so does every other refusal.")
    lines.append("commit %s 6 0 %s" % (fresh(), low))
    lines.append("commit %s 6 0 %s @512" % (fresh(), low))
    lines.append("commit %s - 0" % top)
    lines.append("commit %s - 0 %s" % (fresh(), " ".join(["@0"] * 17)))
    lines.append("commit %s 1073741824 0" % fresh())
    lines.append("commit %s - 17179869184" % fresh())
    lines.append("read 511")
    lines.append("read 512")
    lines.append("count")
    lines.append("capacity")
    return "\n".join(lines) + "\n"


def stored():
    with open(os.path.join(HERE, "examples/three-stations.bundle")) as file:
        story = file.read()
    write("examples/three-stations.answers", answers(story.encode())[0])
    bundle = (story + "\n" + filling(story)).encode()
    said, well = answers(bundle)
    assert well, "the stored run must hold no malformed line"
    write("crates/ask/stdin", bundle)
    write("crates/ask/stdout", said)


def write(name, content):
    with open(os.path.join(HERE, name), "wb") as file:
        file.write(content)


def random_bundle(dice):
    """Lines near the rules: mostly well-formed, with every kind of slip."""
    ids = ["%040x" % dice.randrange(16**40) for _ in range(dice.randrange(1, 9))]
    odd = ["", "-", "@", "@-1", "--", "7x", "\x00", "é", "A" * 40, "f" * 39, "f" * 41, "x" * 61, "y" * 60, "#", "@" + "9" * 30,
           "--always", "--candidates=", "--candidates=3", "--first-parent", "18446744073709551616", "-5", "+5", "0x1"]

    def field(kind):
        roll = dice.random()
        if roll < 0.06:
            return dice.choice(odd)
        if kind == "id":
            return dice.choice(ids)
        if kind == "generation":
            return dice.choice(["-", "-", str(dice.randrange(4)), "1073741823", "1073741824"])
        if kind == "date":
            return dice.choice([str(dice.randrange(-9, 9)), "17179869183", "-17179869185", "17179869184"])
        if kind == "parent":
            return dice.choice([dice.choice(ids), "@%d" % dice.randrange(6)])
        if kind == "option":
            return dice.choice(["--always", "--first-parent", "--candidates=%d" % dice.randrange(99)])
        return str(dice.randrange(6))

    def line():
        word = dice.choice(["commit"] * 8 + ["name", "count", "capacity", "find", "read", "parent", "merge-base", "octopus", "describe"])
        kinds = {
            "commit": ["id", "generation", "date"] + ["parent"] * dice.choice([0, 1, 1, 2, 3, 16, 17]),
            "name": ["id", "number"], "count": [], "capacity": [], "find": ["id"], "read": ["number"], "parent": ["number", "number"],
            "merge-base": ["id"] * dice.randrange(1, 4), "octopus": ["id"] * dice.randrange(1, 4),
            "describe": ["id"] + ["option"] * dice.randrange(3),
        }[word]
        if dice.random() < 0.05:
            kinds = kinds + ["number"]
        if dice.random() < 0.05:
            kinds = kinds[:-1]
        if dice.random() < 0.03:
            word = dice.choice(["Commit", "counts", "coun", "#", "", "merge-bas", "x" * 70])
        blank = lambda: "".join(dice.choice(" \t\r  ") for _ in range(dice.choice([1, 1, 1, 2, 3])))
        return dice.choice(["", "", blank()]) + blank().join([word] + [field(k) for k in kinds]) + dice.choice(["", "", blank()])

    text = "\n".join(line() for _ in range(dice.randrange(40))).encode("utf-8", "surrogateescape")
    if dice.random() < 0.5:
        text += b"\n"
    if dice.random() < 0.2:
        text += bytes(dice.randrange(256) for _ in range(dice.randrange(200)))
    return text


def compare(program, runs):
    for seed in range(runs):
        bundle = random_bundle(random.Random(seed))
        said, well = answers(bundle)
        done = subprocess.run([program], input=bundle, capture_output=True)
        if done.stdout != said or done.returncode != (0 if well else 1) or done.stderr:
            print("differs at seed %d: status %d, expected %d" % (seed, done.returncode, 0 if well else 1))
            for got, due in zip(done.stdout.split(b"\n"), said.split(b"\n")):
                if got != due:
                    print("got ", got)
                    print("due ", due)
                    break
            return 1
    print("%d random bundles answered alike" % runs)
    return 0


def main(args):
    if len(args) == 2 and args[0] == "answers":
        with open(args[1], "rb") as file:
            said, well = answers(file.read())
        sys.stdout.buffer.write(said)
        return 0 if well else 1
    if args == ["stored"]:
        stored()
        return 0
    if len(args) == 3 and args[0] == "random":
        return compare(args[1], int(args[2]))
    print(__doc__)
    return 2


if __name__ == "__main__":
    sys.exit(main(sys.argv[1:]))
