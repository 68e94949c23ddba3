"""Random scripts: the program's answers against the yardstick's, and its refusals against docs/USING.md."""

import re
from collections import Counter

import scripts
from fuzzing.cases import Differs, options_of, room, run, same

KIND, GROUP = "scripts", 25

MAX_LINE, MAX_NUMBER, MAX_ITEM = 1024, 2**32 - 1, 100_001

REPORT = b"".join(b"C%d ok\n" % number for number in (*range(1, 11), 12))

NUMBER = re.compile(rb"0|[1-9][0-9]*")
AMOUNT = re.compile(rb"(-?)((?:0|[1-9][0-9]*)\.[0-9]{2})")
SYLLABLE = "|".join(scripts.SYLLABLES).encode()
NAME = re.compile(b"(%s)(%s)(%s)" % (SYLLABLE, SYLLABLE, SYLLABLE))

COUNTS = (0, 1, 10, 100, 300, 1_000, 3_000, 3_000)


class NoForm(Exception):
    """A line is in none of the forms."""


# ---- The words of a line, each as its number and whether that is in its range


def number(word):
    if not NUMBER.fullmatch(word) or int(word) > MAX_NUMBER:
        raise NoForm
    return int(word)


def up_to(high, low=1):
    return lambda word: low <= number(word) <= high


def amount(word):
    match = AMOUNT.fullmatch(word)
    if not match or word == b"-0.00":
        raise NoForm
    return not match[1] and 100 <= int(match[2].replace(b".", b"")) <= 500_000


def who(customers):
    """A customer's number, or a last name that one of them has."""

    def is_in_range(word):
        name = NAME.fullmatch(word)
        if not name:
            return up_to(customers)(word)
        digits = [scripts.SYLLABLES.index(syllable.decode()) for syllable in name.groups()]
        return 100 * digits[0] + 10 * digits[1] + digits[2] < customers

    return is_in_range


class Reader:
    """What the lines of a script are to be answered by at a scale, so far as refusals and order numbers tell."""

    def __init__(self, scale):
        self.warehouses, self.districts, customers, self.items, self.orders, self.cap = scale
        self.commits = self.lines = 0
        self.refused = Counter()
        self.next_order = {}
        self.first_order = customers + 1
        a_warehouse, a_district = up_to(self.warehouses), up_to(self.districts)
        home, a_customer = [a_warehouse, a_district], up_to(customers)
        self.order_line = [up_to(MAX_ITEM), a_warehouse, up_to(10)]
        self.order = [*home, a_customer]
        self.forms = {
            b"payment": [*home, *home, who(customers), amount],
            b"delivery": [a_warehouse, up_to(10)],
            b"status": [*home, who(customers)],
            b"level": [*home, up_to(20, low=10)],
        }
        self.shown = {
            b"warehouse": [a_warehouse],
            b"district": home,
            b"customer": self.order,
            b"data": self.order,
            b"stock": [a_warehouse, up_to(self.items)],
            b"order": [*home, up_to(self.orders)],
        }

    def are_in_range(self, form, words):
        """Whether words of this form are in their ranges."""
        if len(words) != len(form):
            raise NoForm
        return all([is_in_range(word) for is_in_range, word in zip(form, words)])

    def is_in_range(self, line):
        """Whether a line that is in one of the forms has numbers in their ranges alone."""
        if len(line) > MAX_LINE:
            raise NoForm
        verb, *words = line.split(b" ")
        if verb == b"show":
            if not words or words[0] not in self.shown:
                raise NoForm
            return self.are_in_range(self.shown[words[0]], words[1:])
        if verb == b"neworder":
            of_lines = [self.are_in_range(self.order_line, word.split(b":")) for word in words[3:]]
            return self.are_in_range(self.order, words[:3]) and 5 <= len(of_lines) <= 15 and all(of_lines)
        if verb not in self.forms:
            raise NoForm
        return self.are_in_range(self.forms[verb], words)

    def refusal_of(self, line):
        """The refusal of a line, and what follows on its number; or None."""
        try:
            if not self.is_in_range(line):
                return 2, b""
        except NoForm:
            return 14, b""
        verb, *words = line.split(b" ")
        if verb == b"neworder":
            for item in (int(word.split(b":")[0]) for word in words[3:]):
                if item > self.items:
                    return 5, b" item %d" % item
            if self.order_number(words) > self.orders:
                return 6, b""
        return (7, b"") if verb != b"show" and self.commits >= self.cap else None

    def order_number(self, words):
        """The number that the next order of a New-Order's district gets."""
        return self.next_order.get((words[0], words[1]), self.first_order)

    def beginning_of(self, line):
        """The beginning of a line's answer, which is the whole of it where the line is refused. Counts it."""
        self.lines += 1
        if refusal := self.refusal_of(line):
            self.refused[f"by {refusal[0]}"] += 1
            return b"%d line %d%s\n" % (refusal[0], self.lines, refusal[1])
        verb, *words = line.split(b" ")
        self.commits += verb != b"show"
        match verb:
            case b"show":
                return b" ".join(words) + b" "
            case b"payment":
                return b"payment %s %s customer %s %s " % (*words[:4],)
            case b"neworder":
                given = self.order_number(words)
                self.next_order[words[0], words[1]] = given + 1
                return b"neworder %s %s %d customer %s lines " % (words[0], words[1], given, words[2])
            case b"level":
                return b"level %s %s threshold %s low " % (*words,)
            case b"status":
                return b"status %s %s " % (words[0], words[1])
        return b"delivery %s 1:" % words[0]


def lines_of(text):
    lines = text.split(b"\n")
    return lines if lines[-1] else lines[:-1]


def check(scale, text, output):
    """That a script's output begins each answer as it must, and ends with the report. Gives the reader."""
    reader, answers = Reader(scale), output.splitlines(keepends=True)
    lines = lines_of(text)
    same("the number of lines in the output", len(answers), len(lines) + 12)
    for line, answer in zip(lines, answers):
        beginning = reader.beginning_of(line)
        if not answer.startswith(beginning):
            raise Differs(f"line {reader.lines}, {line[:200]!r}, is answered by {answer!r}, and not {beginning!r}")
    same("the report", b"".join(answers[len(lines) :]), b"commits %d\n" % reader.commits + REPORT)
    return reader


# ---- A case


def scale_of(draws):
    """A small scale, which is soon at a cap or not; or one of a busy district or two, in which stocks run low."""
    if draws.random() < 0.3:
        customers = draws.randint(10, 40)
        return (1, draws.choice((1, 2)), customers, draws.randint(60, 400), customers + 3_000, 600_000)
    customers = draws.choice((10, draws.randint(10, 40), draws.randint(10, 300), draws.randint(990, 1_100)))
    return (
        draws.choice((1, 1, 2, 3, 8)),
        draws.choice((1, 2, 10, draws.randint(1, 10))),
        customers,
        draws.choice((20, draws.randint(20, 60), 300)),
        customers + draws.choice((0, 1, draws.randint(0, 60), *[1_500] * 3)),
        draws.choice((1, draws.randint(1, 300), *[100_000] * 4, 600_000)),
    )


def fed(program, words, script, is_piped):
    """Runs a program on the script of this path: the file itself, or its bytes through a pipe."""
    if is_piped:
        ran = run(program, *words, stdin=None, input=script.read_bytes())
    else:
        with open(script, "rb") as file:
            ran = run(program, *words, stdin=file)
    same(f"what standard error gets of {program}", ran.err, b"")
    return ran


def case(programs, draws, number, seed):
    """A script, of a population that is the plain one, which alone the yardstick has, or is drawn."""
    scale = scale_of(draws)
    shares = dict.fromkeys(scripts.SHARES, 1) if draws.random() < 0.5 else scripts.SHARES
    text = scripts.script(draws, scale, shares, COUNTS)
    population, is_piped = draws.choice((0, 0, 0, 0, draws.randint(1, 2**64 - 1))), draws.random() < 0.5
    words = options_of(scripts.OPTIONS, scale)
    with room(KIND) as folder:
        script, told = folder / "script", ["script", *words, *(["--population", population] if population else [])]
        script.write_bytes(text)
        (folder / "words").write_text(" ".join(map(str, told)) + "\n")
        ran = fed(programs.tpcc, told, script, is_piped)
        (folder / "output").write_bytes(ran.out)
        reader = check(scale, text, ran.out)
        same("the status", ran.status, 0)
        if not population:
            same("the output", ran.out, fed(programs.yardstick, words, script, is_piped).out)
    return Counter(scripts=1, lines=reader.lines, commits=reader.commits) + reader.refused
