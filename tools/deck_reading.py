"""A second reading of decks: what the cards and the statements of a deck say, or the first fault of these two phases.

It is written from docs/CARDS.md, docs/FORTRAN66.md and docs/FAULTS.md alone, and not from the program, so that the two can be
compared. `read_deck` gives the units of a deck, or raises the fault. What checks and execution make of them is no concern of it.
"""
import dataclasses
import re

GREATEST = 2147483647
KINDS = {3: "NumberTooLarge", 9: "Syntax", 10: "NameTooLong", 28: "BadCard", 30: "Limit"}


class Fault(Exception):
    """A fault with the number of its card, and for a limit with its number."""

    def __init__(self, kind, card, limit=0):
        super().__init__(kind, card, limit)
        self.kind, self.card, self.limit = kind, card, limit

    def shown(self, name):
        """The line that tells it of a file of this name."""
        number = f" {self.limit}" if self.limit else ""
        return f"fault {self.kind} {KINDS[self.kind]}{number} at {name}:{self.card}"


# Cards, which become statements.

UNITS = 600
STATEMENTS = 2000000
BYTES = 134217728
CONTINUATIONS = 19


@dataclasses.dataclass
class Statement:
    """A statement as its cards have it: the number of the first one, the label, and columns 7 to 72 of all."""

    card: int
    label: int | None
    text: str
    cards: int = 1


def columns_of(card, number):
    """Columns 1 to 72 of a card."""
    if any(not 32 <= byte <= 126 for byte in card[:72]):
        raise Fault(28, number)
    return card[:72].decode("ascii").ljust(72)


def lines_of(deck):
    """The lines of a deck, without the byte 10 at their ends and a byte 13 before it."""
    *whole, rest = deck.split(b"\n")
    lines = [line.removesuffix(b"\r") for line in whole]
    return [*lines, rest] if rest else lines


def label_of(columns, number):
    """The label in columns 1 to 5."""
    digits = columns[:5].replace(" ", "")
    if not re.fullmatch("[0-9]*", digits):
        raise Fault(28, number)
    return int(digits) if digits else None


def read_cards(deck):
    """The units of a deck, each a list of statements; the last one ends where the deck does."""
    if len(deck) > BYTES:
        raise Fault(30, 0, 1)
    lines = lines_of(deck)
    units, unit, begun = [], [], 0
    # The statement that a continuation may go on.
    last = None
    for number, card in enumerate(lines, 1):
        columns = columns_of(card, number)
        if columns[0] == "C" or not columns.strip():
            last = None
            continue
        if columns[5] not in " 0":
            if last is None or last.cards > CONTINUATIONS:
                raise Fault(28, number)
            last.text += columns[6:]
            last.cards += 1
            continue
        is_end = not columns[:6].strip() and columns[6:].replace(" ", "") == "END"
        label = None if is_end else label_of(columns, number)
        if not unit and len(units) == UNITS:
            raise Fault(30, number, 5)
        if is_end:
            units.append(unit)
            unit, last = [], None
            continue
        if begun == STATEMENTS:
            raise Fault(30, number, 12)
        begun += 1
        last = Statement(number, label, columns[6:])
        unit.append(last)
    if unit or not units:
        raise Fault(28, len(lines) + 1)
    return units


# The signs of a text: its characters without blanks, and Hollerith texts.


@dataclasses.dataclass(frozen=True)
class Hollerith:
    """A Hollerith text, or None for one that goes past the statement's end."""

    text: str | None


def signs_of(text):
    """The signs of a text, up to a Hollerith text that goes past its end."""
    signs, at = [], 0
    count = re.compile("([0-9][0-9 ]*)H")
    while at < len(text):
        counted = count.match(text, at) if signs and signs[-1] in ("(", ",", "/", "*") else None
        if counted:
            start = counted.end()
            at = start + int(counted[1].replace(" ", ""))
            if at > len(text):
                return [*signs, Hollerith(None)]
            signs.append(Hollerith(text[start:at]))
        else:
            if text[at] != " ":
                signs.append(text[at])
            at += 1
    return signs


def depth_of(signs):
    """How many parentheses are open where most are."""
    depth = deepest = 0
    for sign in signs:
        depth = depth + 1 if sign == "(" else max(depth - 1, 0) if sign == ")" else depth
        deepest = max(deepest, depth)
    return deepest


# Statements. A form is read from the left, and NoForm says that the signs are not of it. What it says is a tuple that begins with
# the statement's word or sign.

RELATIONS = (".LT.", ".LE.", ".EQ.", ".NE.", ".GE.", ".GT.")
TYPES = ("INTEGER", "LOGICAL", "REAL", "DOUBLEPRECISION", "COMPLEX")


class NoForm(Exception):
    """The signs are not of the form that was tried."""


class Form:
    """A reading of signs from the left, with the names and numbers that it has met."""

    def __init__(self, signs):
        self.signs, self.at = signs, 0
        self.names, self.numbers = [], []

    def sees(self, word):
        """Whether these characters come next."""
        return self.signs[self.at : self.at + len(word)] == list(word)

    def takes(self, word):
        """Takes these characters where they come next, and says whether they do."""
        seen = self.sees(word)
        self.at += len(word) * seen
        return seen

    def wants(self, word):
        """Takes these characters."""
        if not self.takes(word):
            raise NoForm

    def run_of(self, pattern):
        """Takes all characters that come next and are of this kind."""
        start = self.at
        while self.at < len(self.signs) and isinstance(self.signs[self.at], str) and re.match(pattern, self.signs[self.at]):
            self.at += 1
        return "".join(self.signs[start : self.at])

    def hollerith(self):
        """The Hollerith text that comes next, or None where none does."""
        if self.at == len(self.signs) or isinstance(self.signs[self.at], str):
            return None
        if self.signs[self.at].text is None:
            raise NoForm
        self.at += 1
        return self.signs[self.at - 1]

    def letter(self):
        """A Hollerith text of one character where one comes next, or None."""
        text = self.hollerith()
        if text is not None and len(text.text) != 1:
            raise NoForm
        return text

    def ends(self):
        """Nothing comes any more."""
        if self.at < len(self.signs):
            raise NoForm

    def is_digit(self):
        return self.at < len(self.signs) and isinstance(self.signs[self.at], str) and self.signs[self.at] in "0123456789"

    def number(self):
        digits = self.run_of("[0-9]")
        if not digits:
            raise NoForm
        self.numbers.append(int(digits))
        return int(digits)

    def name(self):
        if self.is_digit():
            raise NoForm
        name = self.run_of("[A-Z0-9]")
        if not name:
            raise NoForm
        self.names.append(name)
        return name

    def list_of(self, member):
        """Members with commas between them."""
        members = [member()]
        while self.takes(","):
            members.append(member())
        return members

    def enclosed(self, member):
        """Such a list in parentheses."""
        self.wants("(")
        members = self.list_of(member)
        self.wants(")")
        return members

    # Expressions.

    def expression(self):
        value = self.conjunction()
        while self.takes(".OR."):
            value = (".OR.", value, self.conjunction())
        return value

    def conjunction(self):
        value = self.negation()
        while self.takes(".AND."):
            value = (".AND.", value, self.negation())
        return value

    def negation(self):
        return (".NOT.", self.relation()) if self.takes(".NOT.") else self.relation()

    def relation(self):
        value = self.sum()
        for word in RELATIONS:
            if self.takes(word):
                return (word, value, self.sum())
        return value

    def sign(self):
        """The sign that comes next, or None."""
        return "+" if self.takes("+") else "-" if self.takes("-") else None

    def sum(self):
        sign = self.sign()
        value = (sign, self.term()) if sign else self.term()
        while sign := self.sign():
            value = (sign, value, self.term())
        return value

    def term(self):
        value = self.factor()
        while word := "*" if self.takes("*") else "/" if self.takes("/") else None:
            value = (word, value, self.factor())
        return value

    def factor(self):
        value = self.prime()
        return ("**", value, self.prime()) if self.takes("**") else value

    def prime(self):
        if self.takes("("):
            value = self.expression()
            self.wants(")")
            return ("()", value)
        for word in (".TRUE.", ".FALSE."):
            if self.takes(word):
                return word
        return self.number() if self.is_digit() else self.element()

    def element(self):
        """A name, with expressions in parentheses or without."""
        name = self.name()
        return (name, self.enclosed(self.expression)) if self.sees("(") else (name,)

    # What statements share.

    def parameter(self):
        return self.number() if self.is_digit() else self.name()

    def turns(self):
        """The variable of a DO and its parameters."""
        name = self.name()
        self.wants("=")
        bounds = self.list_of(self.parameter)
        if not 2 <= len(bounds) <= 3:
            raise NoForm
        return name, bounds if len(bounds) == 3 else [*bounds, 1]

    def declared(self):
        """A name, with dimensions or without."""
        name = self.name()
        return (name, self.enclosed(self.parameter)) if self.sees("(") else (name,)

    def item(self):
        """An item of a READ or WRITE."""
        if not self.takes("("):
            return self.element()
        items = [self.item()]
        self.wants(",")
        while not self.is_turns():
            items.append(self.item())
            self.wants(",")
        turns = self.turns()
        self.wants(")")
        return ("DO", items, turns)

    def is_turns(self):
        """Whether a name and `=` come next."""
        ahead = Form(self.signs)
        ahead.at = self.at
        try:
            ahead.name()
        except NoForm:
            return False
        return ahead.sees("=")

    # Statements by their first letters.

    def assignment(self):
        target = self.element()
        self.wants("=")
        return ("=", target, self.expression())

    def do(self):
        return ("DO", self.number(), self.turns())

    def go_to(self):
        if not self.sees("("):
            return ("GOTO", self.number())
        labels = self.enclosed(self.number)
        self.wants(",")
        return ("GOTO", labels, self.name())

    def condition(self):
        self.wants("(")
        condition = self.expression()
        self.wants(")")
        return condition

    def if_alone(self):
        condition = self.condition()
        return ("IF", condition, self.three_labels() if self.is_digit() else self.statement(UNDER_IF))

    def if_under_if(self):
        return ("IF", self.condition(), self.three_labels())

    def three_labels(self):
        labels = self.list_of(self.number)
        if len(labels) != 3:
            raise NoForm
        return labels

    def call(self):
        name = self.name()
        return ("CALL", name, self.enclosed(lambda: self.letter() or self.expression()) if self.sees("(") else [])

    def stop(self):
        digits = self.run_of("[0-9]")
        if not re.fullmatch("[0-7]{0,5}", digits):
            raise NoForm
        return ("STOP", int(digits, 8) if digits else None)

    def transfer(self, word):
        self.wants("(")
        unit = self.parameter()
        self.wants(",")
        label = self.number()
        self.wants(")")
        return (word, unit, label, self.list_of(self.item) if self.at < len(self.signs) else [])

    def format(self):
        return ("FORMAT", self.group())

    def group(self):
        """Fields in parentheses. Beside a slash the comma may be missing."""
        self.wants("(")
        fields = []
        while not self.takes(")"):
            beside_slash = fields and fields[-1] == "/" or self.sees("/")
            if fields and not self.takes(",") and not beside_slash:
                raise NoForm
            fields.append(self.field())
        return fields

    def field(self):
        text = self.hollerith()
        if text is not None:
            return text
        if self.takes("/"):
            return "/"
        count = self.number() if self.is_digit() else 1
        if self.sees("("):
            return (count, self.group())
        if self.takes("X"):
            return ("X", count)
        if self.takes("A"):
            if self.run_of("[0-9]") != "1":
                raise NoForm
            return ("A1", count)
        for word in "IL":
            if self.takes(word):
                return (word, count, self.number())
        raise NoForm

    def common(self):
        blocks = []
        while self.at < len(self.signs) or not blocks:
            block = None
            if self.takes("/"):
                block = None if self.sees("/") else self.name()
                self.wants("/")
            elif blocks:
                raise NoForm
            blocks.append((block, self.list_of(self.declared)))
        return ("COMMON", blocks)

    def equivalence(self):
        groups = self.list_of(lambda: self.enclosed(self.element))
        if any(len(group) < 2 for group in groups):
            raise NoForm
        return ("EQUIVALENCE", groups)

    def data(self):
        return ("DATA", self.list_of(self.preset))

    def preset(self):
        """Places, and the values that they begin with."""
        places = self.list_of(self.element)
        self.wants("/")
        values = self.list_of(self.values)
        self.wants("/")
        return places, values

    def values(self):
        """A constant, with how often it comes."""
        if not self.is_digit():
            return (1, self.constant())
        number = self.number()
        return (number, self.constant()) if self.takes("*") else (1, number)

    def constant(self):
        text = self.letter()
        if text is not None:
            return text
        for word in (".TRUE.", ".FALSE."):
            if self.takes(word):
                return word
        sign = self.sign()
        return -self.number() if sign == "-" else self.number()

    def statement(self, words):
        """The assignment, or else the statement of these words, that stands from here on to the end."""
        for word, form in (("", Form.assignment), *words.items()):
            tried = Form(self.signs[self.at :])
            try:
                tried.wants(word)
                said = form(tried)
                tried.ends()
            except NoForm:
                continue
            self.names += tried.names
            self.numbers += tried.numbers
            self.at = len(self.signs)
            return said
        raise NoForm

    # Headers.

    def header(self):
        if self.takes("BLOCKDATA"):
            said = ("BLOCKDATA",)
        elif self.takes("SUBROUTINE"):
            said = ("SUBROUTINE", self.name(), self.enclosed(self.name) if self.sees("(") else [])
        else:
            word = next((it for it in TYPES if self.takes(it)), None)
            self.wants("FUNCTION")
            said = ("FUNCTION", word, self.name(), self.enclosed(self.name))
        self.ends()
        return said


def with_list(word, form):
    """The reader of a statement that has a word and a list."""
    return lambda self: (word, self.list_of(lambda: form(self)))


UNDER_IF = {
    "GOTO": Form.go_to,
    "CALL": Form.call,
    "CONTINUE": lambda self: ("CONTINUE",),
    "STOP": Form.stop,
    "RETURN": lambda self: ("RETURN",),
    "IF": Form.if_under_if,
    "READ": lambda self: self.transfer("READ"),
    "WRITE": lambda self: self.transfer("WRITE"),
}
STATEMENT = {
    **UNDER_IF,
    "DO": Form.do,
    "IF": Form.if_alone,
    "FORMAT": Form.format,
    **{word: with_list(word, Form.declared) for word in (*TYPES, "DIMENSION")},
    "COMMON": Form.common,
    "EQUIVALENCE": Form.equivalence,
    "DATA": Form.data,
}


def header_of(signs):
    """A form that has read these signs as a header and what it says, or None."""
    form = Form(signs)
    try:
        return form, form.header()
    except NoForm:
        return None


def read_statement(statement, is_first):
    """What a statement or header says."""
    signs = signs_of(statement.text)
    if depth_of(signs) > 110:
        raise Fault(30, statement.card, 3)
    header = header_of(signs) if is_first else None
    if header:
        form, said = header
        if statement.label is not None:
            raise Fault(9, statement.card)
    else:
        form = Form(signs)
        try:
            said = form.statement(STATEMENT)
        except NoForm:
            raise Fault(9, statement.card) from None
    if any(number > GREATEST for number in form.numbers):
        raise Fault(3, statement.card)
    if any(len(name) > 6 for name in form.names):
        raise Fault(10, statement.card)
    return said


def read_deck(deck):
    """The units of a deck: lists of labels, each with what its statement says."""
    units = read_cards(deck)
    return [[(it.label, read_statement(it, it is unit[0])) for it in unit] for unit in units]
