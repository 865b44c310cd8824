"""VBK files and the text that blockrun prints, for the tools of this folder."""
import os
import struct
import subprocess
import sys

ROOT = os.path.dirname(os.path.dirname(os.path.realpath(__file__)))


def read_meanings():
    """The answer numbers of answers.txt, each with what it means."""
    with open(os.path.join(ROOT, "answers.txt"), encoding="ascii") as f:
        rows = [line.split(None, 2) for line in f if not line.startswith("#")]
    return {int(number): words.strip() for number, _, words in rows}


MEANINGS = read_meanings()


class Bad(Exception):
    """A file or a text that a tool cannot use."""


def meaning(number):
    return MEANINGS.get(number, "no answer has this number")


# ---- making a file


def plane(depth, width, height, samples):
    """The header and the samples, row by row."""
    assert len(samples) == width * height
    return b"VBK" + struct.pack("<HBHH", 1, depth, width, height) + struct.pack("<%dH" % len(samples), *samples)


def record(x, y, size, tx_type, lossless, dc, ac, tokens):
    """One block. Tokens that are left out at the end are zeros; whatever a reader refuses is written all the same."""
    count = 16 << 2 * min(size, 3)
    assert len(tokens) <= count
    whole = list(tokens) + [0] * (count - len(tokens))
    return struct.pack("<HHBBBHH", x, y, size, tx_type, lossless, dc, ac) + struct.pack("<%di" % count, *whole)


def wht(a, c, d, b):
    """The Walsh-Hadamard transform of four numbers, at shift 0."""
    a, d = a + c, d - b
    e = (a - d) >> 1
    b, c = e - b, e - c
    return [a - b, b, c, d + c]


def forward_wht(block):
    """Columns, then rows: the tokens of a lossless block at quantizers 4 and 4, from its sixteen differences."""
    columns = [wht(*block[j::4]) for j in range(4)]
    return [v for i in range(4) for v in wht(*(columns[j][i] for j in range(4)))]


# ---- reading


def read_plane(file):
    """Depth, width, height and samples of a file whose header blockrun does not refuse."""
    if len(file) < 10 or file[:3] != b"VBK":
        raise Bad("not a VBK file")
    _, depth, width, height = struct.unpack_from("<HBHH", file, 3)
    if len(file) < 10 + 2 * width * height:
        raise Bad("the samples are cut short")
    return depth, width, height, list(struct.unpack_from("<%dH" % (width * height), file, 10))


class Record:
    """The head of a record: place, size number, type, lossless byte and quantizers."""

    def __init__(self, x, y, size, kind, lossless, dc, ac):
        self.x, self.y, self.size, self.kind, self.lossless, self.dc, self.ac = x, y, size, kind, lossless, dc, ac
        self.tokens = []


def read_records(file):
    """The records of a file, to the one at which blockrun stops reading: a size above 3, or fewer bytes than it needs."""
    _, width, height, _ = read_plane(file)
    out = []
    at = 10 + 2 * width * height
    while at + 11 <= len(file):
        out.append(Record(*struct.unpack_from("<HHBBBHH", file, at)))
        if out[-1].size > 3:
            break
        count = 16 << 2 * out[-1].size
        if at + 11 + 4 * count <= len(file):
            out[-1].tokens = list(struct.unpack_from("<%di" % count, file, at + 11))
        at += 11 + 4 * count
    return out


class Run:
    """What blockrun's text says: the refusal of the whole file, or all the rest."""

    def __init__(self):
        self.refusal = None
        self.version = self.depth = self.width = self.height = self.touched = None
        self.answers = []
        self.rows = []


def read_text(text):
    """A Run from blockrun's text; a line that blockrun never prints there is refused."""
    if not text.endswith("\n"):
        raise Bad("this is not the text of blockrun: it ends inside a line")
    run = Run()
    lines = text[:-1].split("\n")
    for number, line in enumerate(lines, 1):
        word, *rest = line.split(" ")
        if not all(w.isascii() and w.isdigit() for w in rest):
            word = ""
        values = [int(w) for w in rest] if word else []
        if (word, len(values), number, len(lines)) == ("E", 1, 1, 1):
            run.refusal = values[0]
        elif (word, len(values), number) == ("VBK", 4, 1):
            run.version, run.depth, run.width, run.height = values
        elif run.width and word == "B" and len(values) == 2 and values[0] == len(run.answers) and not run.rows:
            run.answers.append(values[1])
        elif run.width and word == "S" and len(values) == run.width and len(run.rows) < run.height:
            run.rows.append(values)
        elif (word, len(values), number) == ("T", 1, len(lines)) and len(run.rows) == run.height:
            run.touched = values[0]
        else:
            raise Bad("this is not the text of blockrun: line %d is %r" % (number, line[:60]))
    if run.refusal is None and run.touched is None:
        raise Bad("this is not the text of blockrun: it has no line T")
    return run


def blockrun(file):
    """The text that blockrun prints for the file of this name."""
    done = subprocess.run([os.path.join(ROOT, "blockrun"), file], stdout=subprocess.PIPE)
    if done.returncode != 0:
        raise Bad("blockrun ended with status %d" % done.returncode)
    return done.stdout.decode("ascii")


def program():
    """The words that run our blockrun here, proved and built where needed."""
    subprocess.run([os.path.join(ROOT, "blockrun")], stdin=subprocess.DEVNULL, stdout=subprocess.DEVNULL, check=True)
    words = '. tools/machine && printf "%s\\n" ${emulator:+"$emulator"} "$loader" --library-path "$libraries"'
    said = subprocess.run(["sh", "-c", words], cwd=ROOT, stdout=subprocess.PIPE, check=True).stdout.decode()
    return said.splitlines() + [os.path.join(ROOT, "target", "ready", "blockrun")]


def version():
    """The tool's name and the version of all."""
    with open(os.path.join(ROOT, "VERSION"), encoding="ascii") as f:
        return "%s (Bracetwill) %s" % (os.path.basename(sys.argv[0]), f.read().strip())


def words(usage, least, most):
    """The words of the command; where there are too few or too many, or one is an option, how the tool is used, and status 2."""
    given = sys.argv[1:]
    if given == ["--version"]:
        print(version())
        sys.exit(0)
    if "-h" in given or "--help" in given:
        print(usage)
        sys.exit(0)
    if not least <= len(given) <= most or any(word.startswith("-") for word in given):
        print(usage, file=sys.stderr)
        sys.exit(2)
    return given


def number(word, name):
    """A word that is a number, 0 or more."""
    if not (word.isascii() and word.isdigit()):
        print("%s: %s is a number, not %r" % (os.path.basename(sys.argv[0]), name, word), file=sys.stderr)
        sys.exit(2)
    return int(word)


def guarded(main):
    """Runs a tool; what it cannot use is said on standard error, with status 1."""
    try:
        main()
    except BrokenPipeError:
        raise
    except (Bad, OSError, ValueError, subprocess.CalledProcessError) as e:
        sys.exit("%s: %s" % (os.path.basename(sys.argv[0]), e))
