# A model of docs/RULES.md alone: makes crates/replay_cases/stdout from its stdin: python3 tools/replay_model.py < stdin > stdout
import re
import sys

LIMIT = 32768
NUMBER = rb"[0-9]{1,9}"
FORMS = [re.compile(form, re.DOTALL) for form in (
    rb"(B) ([FS]) (%s) (%s) (%s)" % (NUMBER, NUMBER, NUMBER),
    rb"(S) (-?%s)" % NUMBER,
    rb"([ZTNO])",
    rb"([PL]) (%s)" % NUMBER,
    rb"(W) (%s) (%s) ([^ \n]{1,8}) (%s)" % (NUMBER, NUMBER, NUMBER),
    rb"(R) (%s) (%s)" % (NUMBER, NUMBER),
)]
CODES = b" 0123456789ABCDEFGHIJKLMNOPQRSTUVWXYZ"
BLANK = None
PAGES, ROWS = 8, 16


class Refused(Exception):
    pass


def refuse(number, when):
    if when:
        raise Refused(number)


def rounded(a, b):
    # the nearest whole number to a / b; a tie goes away from zero
    size = (2 * abs(a) + b) // (2 * b)
    return size if a >= 0 else -size


def lawful_mark(mark):
    if len(mark) > 8 or any(c not in CODES for c in mark):
        return False
    return mark[:1] not in (b"", b" ") and b" " not in mark.rstrip(b" ")


class Memory:
    # Rows hold a record, as a tuple of number, stamp and ticket line, or are blank; nothing tears here.
    def __init__(self):
        self.rows = [BLANK] * (PAGES * ROWS)

    def page(self, p):
        return self.rows[ROWS * p:ROWS * (p + 1)]

    def newest_row(self):
        used = [(-row[0], r) for r, row in enumerate(self.rows) if row]
        return min(used)[1] if used else None

    def around(self):
        newest = self.newest_row()
        start = 0 if newest is None else newest // ROWS + 1
        return list(range(start, PAGES)) + list(range(start))

    def check_order(self):
        before = None
        for p in self.around():
            for row in self.page(p):
                if row:
                    refuse(21, before and not (row[0] > before[0] and row[1] >= before[1]))
                    before = row

    def next_row(self):
        def end(p):
            used = [i for i, row in enumerate(self.page(p)) if row]
            i = used[-1] + 1 if used else 0
            return ROWS * p + i if i < ROWS else None
        newest = self.newest_row()
        if newest is not None and end(newest // ROWS) is not None:
            return end(newest // ROWS)
        first = self.around()[0]
        return None if any(self.page(first)) else end(first)

    def store(self, stamp, line_of):
        self.check_order()
        newest = self.newest_row()
        number = 1
        if newest is not None:
            refuse(22, stamp < self.rows[newest][1])
            refuse(23, self.rows[newest][0] == 2 ** 32 - 1)
            number = self.rows[newest][0] + 1
        row = self.next_row()
        refuse(24, row is None)
        self.rows[row] = (number, stamp, line_of(number))
        return number

    def look_up(self, number):
        self.check_order()
        for row in self.rows:
            if row and row[0] == number:
                return row[2]
        raise Refused(26)

    def release(self, day, today, keep=90):
        refuse(29, not 90 <= keep <= 400)
        self.check_order()
        newest = self.newest_row()
        refuse(30, newest is not None and today < self.rows[newest][1][0])
        refuse(31, day + keep > today)
        for p in self.around():
            if any(row and row[1][0] >= day for row in self.page(p)):
                return
            if newest is not None and p == newest // ROWS:
                return
            self.rows[ROWS * p:ROWS * (p + 1)] = [BLANK] * ROWS


class Terminal:
    def __init__(self, kind, e, n, least):
        self.kg, self.n, self.least = e, n, least
        self.memory = Memory()
        self.open()

    def open(self):
        self.waiting, self.zero, self.tare, self.window = True, 0, 0, []

    def mean(self):
        w = self.window
        refuse(10, len(w) < 8 or max(w) - min(w) > 5)
        return rounded(sum(w), 8)

    def gross(self):
        return rounded(self.mean() - self.zero, 10)

    def sample(self, load):
        if abs(load) > 200000:
            self.window = []
            raise Refused(7)
        if self.waiting and rounded(load - self.zero, 10) < self.least:
            self.waiting, self.window = False, []
        else:
            self.window = (self.window + [load])[-8:]

    def set_zero(self):
        refuse(9, self.tare)
        mean = self.mean()
        refuse(11, 5 * abs(mean) > self.n)
        self.zero = mean

    def preset(self, value):
        refuse(9, self.tare)
        refuse(12, not 1 <= value <= self.n)
        self.tare = value

    def take_tare(self):
        refuse(9, self.tare)
        self.preset(self.gross())

    def weigh(self, day, minute, mark, price):
        refuse(13, minute > 1439)
        refuse(14, not lawful_mark(mark))
        refuse(15, price > 1000000)
        refuse(16, self.waiting)
        gross = self.gross()
        refuse(17, gross < self.least)
        refuse(18, gross > self.n + 9)
        net = gross - self.tare
        refuse(19, net < 1)
        cents = (net * self.kg * price + 500) // 1000

        def line(number):
            letters = b"T " if self.tare else b"--"
            return b"%010d %05d %04d %-8s %02d %06d %s %06d %06d %07d %09d\n" % (
                number, day, minute, mark, self.kg, gross * self.kg, letters, self.tare * self.kg, net * self.kg, price, cents)
        number = self.memory.store((day, minute), line)
        self.waiting = True
        return self.memory.look_up(number)


def opened(kind, class_, e, n):
    refuse(4, class_ not in (3, 4))
    refuse(5, e not in (1, 2, 5, 10, 20, 50))
    least, most, minimum = (500, 10000, 20) if class_ == 3 else (100, 1000, 10)
    refuse(6, not least <= n <= most)
    return Terminal(kind, e, n, minimum)


def fields(line):
    # The letter and the fields of a good line; 32 for any other.
    refuse(32, not line.endswith(b"\n"))
    for form in FORMS:
        found = form.fullmatch(line[:-1])
        if found:
            return found.groups()
    raise Refused(32)


def play(terminal, line):
    # What a line does and writes: the terminal that there is then, and the bytes.
    letter, *words = fields(line)
    refuse(32, (letter == b"B") == (terminal is not None))
    days = {b"W": words[:1], b"R": words}.get(letter, [])
    refuse(32, any(int(day) > 65535 for day in days))
    if letter == b"B":
        return opened(words[0], *map(int, words[1:])), b""
    if letter == b"W":
        return terminal, terminal.weigh(int(words[0]), int(words[1]), words[2], int(words[3]))
    if letter == b"L":
        return terminal, terminal.memory.look_up(int(words[0]))
    calls = {b"S": terminal.sample, b"Z": terminal.set_zero, b"T": terminal.take_tare, b"P": terminal.preset,
             b"O": terminal.open, b"R": terminal.memory.release}
    if letter == b"N":
        terminal.tare = 0
    else:
        calls[letter](*map(int, words))
    return terminal, b""


def replay(trace):
    terminal, out = None, b""
    for count, line in enumerate(re.findall(rb"[^\n]*\n|[^\n]+", trace[:LIMIT]), 1):
        try:
            terminal, written = play(terminal, line)
        except Refused as fault:
            written = b"E %02d %05d\n" % (fault.args[0], count)
        out += written
    return out


def cases(bundle):
    begins = [m.start() for m in re.finditer(rb"^= ", bundle, re.MULTILINE)] + [len(bundle)]
    for at, end in zip(begins, begins[1:]):
        name, _, trace = bundle[at:end].partition(b"\n")
        yield name, trace


for name, trace in cases(sys.stdin.buffer.read()):
    sys.stdout.buffer.write(name + b"\n" + replay(trace))
