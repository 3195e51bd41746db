#!/usr/bin/env python3
"""An independent model of document 01, as document 02 changes it, written from their text with unbounded integers:
opening, joining, fixing, interim fixing, settlement, and the month sheet, read and written.

    tools/recompute.py < JOURNAL

prints what each call of a journal (JOURNAL.md) is answered with. No part of the gate; the outputs that the gate compares
were worked with it."""
import calendar
import re
import sys

sys.set_int_max_str_digits(0)


def half_up(a, b):
    assert a >= 0 and b > 0
    return (2 * a + b) // (2 * b)


def half_away(a, b):
    return half_up(a, b) if a >= 0 else -half_up(-a, b)


class Ledger:
    """n, last month, fixing present, its month and first day, presence and charge of each sector; W-206: whether an older
    fixing is kept, and its presences and charges; balance and count of settled months of each distributor."""

    def __init__(self, n=0):
        self.n, self.last, self.fixed, self.month, self.day, self.older = n, 0, False, 0, 0, False
        self.present, self.charge = [False] * 320, [0] * 320
        self.older_present, self.older_charge = [False] * 320, [0] * 320
        self.balance, self.count = [0] * 40, [0] * 40

    def copy(self):
        c = Ledger(self.n)
        c.last, c.fixed, c.month, c.day, c.older = self.last, self.fixed, self.month, self.day, self.older
        c.present, c.charge = list(self.present), list(self.charge)
        c.older_present, c.older_charge = list(self.older_present), list(self.older_charge)
        c.balance, c.count = list(self.balance), list(self.count)
        return c

    def settled(self):
        """W-205: "a month is settled once any count isn't zero"."""
        return any(self.count)


def open_ledger(n):
    return (0, Ledger(n)) if 1 <= n <= 40 else (1, Ledger(0))


def days_of(month):
    """W-206: "Days follow the Gregorian calendar"; month 0 is January 2000."""
    return calendar.monthrange(2000 + month // 12, month % 12 + 1)[1]


def sectors_sound(n, kept, present, charge):
    """What soundness asks of the presences and charges of a fixing, and of those of one that is not kept."""
    # "entries past n .. are zero"
    if any(present[8 * n:]) or any(charge[8 * n:]):
        return False
    # "charges of absent sectors"
    if any(c != 0 and not p for p, c in zip(present, charge)):
        return False
    # "everything unset [is] zero"
    if not kept and (any(present) or any(charge)):
        return False
    return all(abs(c) <= 10_500_000 for c in charge)


def sound(b):
    if not 1 <= b.n <= 40:
        return False
    # "entries past n .. are zero"
    if any(b.balance[b.n:]) or any(b.count[b.n:]):
        return False
    if not sectors_sound(b.n, b.fixed, b.present, b.charge):
        return False
    # W-206: the older fixing is "sound by the same rules and only beside one in force"
    if not sectors_sound(b.n, b.older, b.older_present, b.older_charge) or b.older and not b.fixed:
        return False
    # "everything unset [is] zero"
    if not b.fixed and (b.month != 0 or b.day != 0):
        return False
    if not b.settled() and b.last != 0:
        return False
    # "month numbers are at most 1,199"
    if b.last > 1199 or b.month > 1199:
        return False
    # W-206: unsound if the "kept day lies outside the month of its fixing, or above 1 with no older fixing kept"
    if b.fixed and not 1 <= b.day <= days_of(b.month) or b.day > 1 and not b.older:
        return False
    # "once a month is settled, .. the fixing's month [is] at most last+1"
    if b.settled() and b.month > b.last + 1:
        return False
    # W-205: "each [count] is at most last+1"
    if any(c > b.last + 1 for c in b.count):
        return False
    # W-205: "a balance with count zero is zero"
    if any(v != 0 and c == 0 for v, c in zip(b.balance, b.count)):
        return False
    if any(abs(v) > 10 ** 15 for v in b.balance):
        return False
    return not (any(v > 0 for v in b.balance) and any(v < 0 for v in b.balance))


def join(book):
    if not sound(book):
        return 2, book
    if book.n == 40:
        return 15, book
    # "adds one at the end with balance 0, and no fixing is then in force"; its count is "zero on joining"
    new = Ledger(book.n + 1)
    new.last, new.balance, new.count = book.last, list(book.balance), list(book.count)
    return 0, new


def term_wrong(lag, window, value):
    """Cause 6 of what a term and the power term have in common."""
    return not 1 <= lag <= 12 or window not in (1, 6, 9) or not 1 <= value <= 99_999_999


def line_wrong(line, n):
    """Cause 6 of one line of 30 words."""
    d, base, offer, purchase, energy, count = line[:6]
    if not d < n or not 1 <= base <= 1_000_000:
        return True
    if not 5000 <= offer <= 20000 or not 5000 <= purchase <= 20000:
        return True
    if not 1 <= energy <= 10_000_000 or not count <= 4:
        return True
    total = 0
    for k in range(4):
        series, weight, lag, window, value = line[6 + 5 * k:11 + 5 * k]
        if k >= count:
            if (series, weight, lag, window, value) != (0, 0, 0, 0, 0):
                return True
            continue
        if series > 4 or not 1 <= weight <= 10000 or term_wrong(lag, window, value):
            return True
        total += weight
    if count != 0 and total != 10000:
        return True
    # W-204: "a power base price, 1 to 100,000,000 .., and one CPI term (lag, window, base value) under a term's ranges"
    power_base, lag, window, value = line[26:]
    return not 1 <= power_base <= 100_000_000 or term_wrong(lag, window, value)


def months_of(t, lag, window):
    return [t - lag - k for k in range(window)]


def value_at(series, first, row, month):
    """The published value, or None where the month is missing."""
    if month < 0 or not first <= month <= first + 47:
        return None
    v = series[48 * row + month - first]
    return v if v else None


def missing_term(line, t, first, series):
    """The first term with a missing month, or None; the power term is term 4, whatever the line's count."""
    own = [(k, line[6 + 5 * k], line[8 + 5 * k], line[9 + 5 * k]) for k in range(line[5])]
    for k, row, lag, window in own + [(4, 3, line[27], line[28])]:
        if any(value_at(series, first, row, m) is None for m in months_of(t, lag, window)):
            return k
    return None


def ratio_of(t, first, series, row, lag, window, value):
    """W-202: the mean is "sum x 100 / window, half up, in millionths, and the ratio divides by the base value times 100"."""
    mean = half_up(sum(value_at(series, first, row, m) for m in months_of(t, lag, window)) * 100, window)
    return half_up(mean * 1_000_000, value * 100)


def indexed_price(base, f, most):
    """The base price moved by a factor, or None where the factor or the price is out of bounds."""
    if f > 100_000_000:
        return None
    indexed = half_up(base * f, 1_000_000)
    return indexed if 1 <= indexed <= most else None


def purchase_price(line, indexed, most):
    """The indexed price moved by purchase over offer factor, or None where either is out of bounds."""
    if indexed is None:
        return None
    offer, purchase_factor = line[2:4]
    purchase = half_up(indexed * purchase_factor, offer)
    return purchase if 1 <= purchase <= most else None


def new_indexed(line, t, first, series):
    """The new indexed price of a line, or None where the factor or the price is out of bounds."""
    base, count = line[1], line[5]
    f = 1_000_000
    if count:
        total = 0
        for k in range(count):
            row, weight, lag, window, value = line[6 + 5 * k:11 + 5 * k]
            total += weight * ratio_of(t, first, series, row, lag, window, value)
        f = half_up(total, 10000)
    return indexed_price(base, f, 1_000_000)


def has_moved(old, new):
    """W-201: "ten times the difference is more than the price in force"."""
    return 10 * abs(new - old) > old


def line_price(line, dollar, factor, taken):
    """The reference of a line from the price taken, or None where a price is out of bounds."""
    purchase = purchase_price(line, taken, 1_000_000)
    if purchase is None:
        return None
    peso = half_up(purchase * dollar, 100_000)
    reference = half_up(peso * factor, line[3])
    return reference if 1000 <= reference <= 2_000_000 else None


def power_price(line, t, first, series, dollar):
    """W-204: "indexed by that ratio alone, moved by purchase over offer factor, and turned into thousandths of $/kW/month
    by D / 100, half up at each step"; None where the ratio or a price is out of bounds."""
    base, lag, window, value = line[26:]
    indexed = indexed_price(base, ratio_of(t, first, series, 3, lag, window, value), 100_000_000)
    purchase = purchase_price(line, indexed, 100_000_000)
    return None if purchase is None else half_up(purchase * dollar, 100)


def averages(prices, rows, e):
    """Each distributor's average, "weighted by energy, half up"."""
    return [half_up(sum(q * line[4] for q, line in zip(prices, rows) if line[0] == i), e[i]) for i in range(len(e))]


def limit_and_rounds(p, e):
    n = len(p)
    total = sum(a * b for a, b in zip(p, e))
    limit = 105 * total // (100 * sum(e))
    capped = {i for i in range(n) if p[i] > limit}
    r = rounds = 0
    if capped:
        while True:
            rounds += 1
            need = sum((p[i] - limit) * e[i] for i in capped)
            outside = sum(e[i] for i in range(n) if i not in capped)
            r = -(-need // outside)
            joining = {i for i in range(n) if i not in capped and p[i] + r > limit}
            if not joining:
                break
            capped |= joining
    final = [limit if i in capped else p[i] + r for i in range(n)]
    residue = sum(a * b for a, b in zip(final, e)) - total
    return limit, r, rounds, residue, final


def older_beside(book, month):
    """W-206: whether an older fixing would stand beside a new one for a month, and its presences and charges."""
    # "A fixing for a later month makes the one in force the older"
    if book.fixed and month > book.month:
        return True, book.present, book.charge
    # "one for the same month replaces only that in force"
    if book.fixed and month == book.month:
        return book.older, book.older_present, book.older_charge
    # "one for an earlier month drops both"
    return False, [False] * 320, [0] * 320


def fix(book, month, dollar, factor, first, day, series, lines, sectors, in_force, prices, power):
    """(number, values, ledger, prices, power); in_force is None in a regular fixing."""
    keep = (book, prices, power)
    if not sound(book):
        return 2, (), *keep
    n = book.n
    if len(series) != 240 or len(lines) % 30 or not 1 <= len(lines) // 30 <= 256:
        return 3, (), *keep
    if len(sectors) != 8 * n or len(prices) != 3 * n or len(power) != n:
        return 3, (), *keep
    if in_force is not None and len(in_force) != len(lines) // 30:
        return 3, (), *keep
    if month > 1199 or (book.settled() and month != book.last + 1):
        return 4, (), *keep
    older, older_present, older_charge = older_beside(book, month)
    if not 1 <= day <= days_of(month) or day > 1 and not older:
        return 16, (), *keep
    rows = [lines[30 * j:30 * j + 30] for j in range(len(lines) // 30)]
    if not 1 <= dollar <= 200_000 or not 5000 <= factor <= 20000 or first > 1199:
        return 6, (), *keep
    if any(line_wrong(line, n) for line in rows):
        return 6, (), *keep
    if in_force is not None and any(not 1 <= v <= 1_000_000 for v in in_force):
        return 6, (), *keep
    if any(v > 99_999_999 for v in series):
        return 7, (), *keep
    if any(s > 50000 for s in sectors) or any(not any(sectors[8 * i:8 * i + 8]) for i in range(n)):
        return 8, (), *keep
    if {line[0] for line in rows} != set(range(n)):
        return 9, (), *keep
    for j, line in enumerate(rows):
        k = missing_term(line, month, first, series)
        if k is not None:
            return 10, (j, k), *keep
    power_prices = []
    references, moved = [], in_force is None
    for j, line in enumerate(rows):
        taken = new_indexed(line, month, first, series)
        if taken is None:
            return 11, (j,), *keep
        if in_force is not None:
            if has_moved(in_force[j], taken):
                moved = True
            else:
                taken = in_force[j]
        references.append(line_price(line, dollar, factor, taken))
        # "An interim fixing works power afresh, without the 10% test."
        power_prices.append(power_price(line, month, first, series, dollar))
        if references[j] is None or power_prices[j] is None:
            return 11, (j,), *keep
    if not moved:
        return 14, (), *keep
    e = [sum(line[4] for line in rows if line[0] == i) for i in range(n)]
    p = averages(references, rows, e)
    limit, r, rounds, residue, final = limit_and_rounds(p, e)
    written = []
    for i in range(n):
        written += [p[i], final[i], final[i] - p[i]]
    new = book.copy()
    new.older, new.older_present, new.older_charge = older, older_present, older_charge
    new.fixed, new.month, new.day = True, month, day
    new.present, new.charge = [False] * 320, [0] * 320
    for k, s in enumerate(sectors):
        i = k // 8
        if s:
            new.present[k], new.charge[k] = True, half_away((final[i] - p[i]) * s, 10000)
    return 0, (limit, r, rounds, residue), new, written, averages(power_prices, rows, e)


def shares(sizes, t):
    total = sum(sizes)
    if total == 0:
        return [0] * len(sizes)
    out = [t * s // total for s in sizes]
    # W-208: "what is left of T goes out one peso each to the largest remainders, the lower distributor first among equals"
    order = sorted(range(len(sizes)), key=lambda i: (-(t * sizes[i] % total), i))
    for i in order[:t - sum(out)]:
        out[i] += 1
    return out


def billed_under(book, month):
    """The presences and charges that a month is billed under."""
    if month != book.month or book.day == 1:
        return book.present, book.charge
    # W-206: "In a split month a sector present in either is present"; its charge is that of each day in turn, over all days
    present = [old or new for old, new in zip(book.older_present, book.present)]
    days = range(1, days_of(month) + 1)
    each_day = [[old if day < book.day else new for day in days] for old, new in zip(book.older_charge, book.charge)]
    return present, [half_away(sum(charges), len(days)) for charges in each_day]


def settle(book, month, readings, losses, out):
    keep = (book, out)
    if not sound(book):
        return 2, *keep
    n = book.n
    if len(readings) != 32 * n or len(losses) != 2 * n or len(out) != n:
        return 3, *keep
    if month > 1199:
        return 4, *keep
    if book.settled():
        if month != book.last + 1:
            return 4, *keep
    elif book.fixed and month != book.month:
        return 4, *keep
    if not book.fixed:
        return 5, *keep
    if any(v > 2_000_000_000 for v in readings) or any(not 10000 <= v <= 20000 for v in losses):
        return 12, *keep
    present, charge = billed_under(book, month)
    if any(any(readings[4 * k:4 * k + 4]) and not present[k] for k in range(8 * n)):
        return 12, *keep
    position = []
    for i in range(n):
        peat, pebt = losses[2 * i:2 * i + 2]
        total = 0
        for k in range(8 * i, 8 * i + 8):
            bat, iat, bbt, ibt = readings[4 * k:4 * k + 4]
            x = half_away((bat - iat) * peat * 10000 + (bbt - ibt) * peat * pebt, 100_000_000)
            total += charge[k] * x
        position.append(book.balance[i] + half_away(total, 1000))
    if any(abs(v) > 10 ** 15 for v in position):
        return 13, *keep
    owing, owed = [max(v, 0) for v in position], [max(-v, 0) for v in position]
    t = min(sum(owing), sum(owed))
    transfers = [b - a for a, b in zip(shares(owing, t), shares(owed, t))]
    new = book.copy()
    # "a settlement raises all"
    new.balance[:n], new.count[:n] = [v + w for v, w in zip(position, transfers)], [c + 1 for c in book.count[:n]]
    new.last = month
    return 0, new, transfers


def read_sheet(n, sheet, readings):
    """(number, readings). W-209: "a bit map of 4 bytes, low byte first", then "the readings whose bit is set, 4 bytes each,
    low byte first, in bit order": so the whole sheet is numbers of 4 bytes, and one that is not whole ends it early."""
    if not 1 <= n <= 40:
        return 1, readings
    if len(readings) != 32 * n:
        return 3, readings
    numbers = [int.from_bytes(sheet[4 * k:4 * k + 4], "little") for k in range(len(sheet) // 4)]
    found, at = [], 0
    for _ in range(n):
        if at == len(numbers):
            return 17, readings
        bit_map, at = numbers[at], at + 1
        for bit in range(32):
            # "Absent readings are zero."
            if bit_map // 2 ** bit % 2 == 0:
                found.append(0)
                continue
            if at == len(numbers):
                return 17, readings
            if numbers[at] == 0:
                return 18, readings
            # However large: "any later check is the settlement's"
            found.append(numbers[at])
            at += 1
    # "has bytes left", of which the places are after all others
    if 4 * at != len(sheet):
        return 17, readings
    return 0, found


def write_sheet(n, readings, sheet):
    """(number, bytes used, sheet)."""
    keep = (0, sheet)
    if not 1 <= n <= 40:
        return 1, *keep
    if len(readings) != 32 * n or len(sheet) < 132 * n:
        return 3, *keep
    if any(v > 2_000_000_000 for v in readings):
        return 12, *keep
    written = b""
    for i in range(n):
        own = readings[32 * i:32 * i + 32]
        # "the lowest bit being sector 0, billed AT"
        bit_map = sum(2 ** bit for bit, v in enumerate(own) if v)
        written += b"".join(v.to_bytes(4, "little") for v in [bit_map, *filter(None, own)])
    # "saying how much it used and leaving the rest"
    return 0, len(written), [*written, *sheet[len(written):]]


# A journal of calls (the text form that `replay` reads), answered by the model.
MOST_BYTES, MOST_WORDS = 524_288, 8_192


class Unreadable(Exception):
    """A journal that cannot be read, with the place of its first bad token."""


class Journal:
    def __init__(self, text):
        bare = re.sub(rb"#[^\n]*", lambda m: b" " * len(m.group()), text)
        self.tokens = [(m.start(), m.group()) for m in re.finditer(rb"[^ \t\r\n]+", bare)]
        self.next, self.length = 0, len(text)

    def token(self):
        if self.next == len(self.tokens):
            raise Unreadable(self.length)
        self.next += 1
        return self.tokens[self.next - 1]

    def word(self, expected):
        at, token = self.token()
        if token != expected:
            raise Unreadable(at)

    def number(self, least=0, most=2 ** 64 - 1):
        at, token = self.token()
        if not re.fullmatch(rb"-?[0-9]+" if least < 0 else rb"[0-9]+", token) or not least <= int(token) <= most:
            raise Unreadable(at)
        return int(token)

    def signed(self):
        return self.number(-2 ** 63, 2 ** 63 - 1)

    def flag(self):
        return self.number(0, 1) == 1

    def byte(self):
        return self.number(0, 255)

    def count(self, name, most=MOST_WORDS):
        self.word(name)
        return self.number(0, most)

    def list(self, name, read, most=MOST_WORDS):
        return [read() for _ in range(self.count(name, most))]


def fixing_command(journal, book, name):
    month, dollar, factor, first, day = (journal.number() for _ in range(5))
    series, lines, sectors = (journal.list(name, journal.number) for name in (b"series", b"lines", b"sectors"))
    in_force = journal.list(b"inforce", journal.number) if name == "interim" else None
    prices, power = [-1] * journal.count(b"prices"), [2 ** 64 - 1] * journal.count(b"power")
    given = (month, dollar, factor, first, day, series, lines, sectors, in_force, prices, power)
    number, values, book, prices, power = fix(book, *given)
    if number == 0:
        rows = [f"{i} {prices[3 * i]} {prices[3 * i + 1]} {prices[3 * i + 2]} {power[i]}" for i in range(book.n)]
        return book, [name + " accepted limit %d surcharge %d rounds %d residue %d" % values] + rows
    place = {10: " line %d term %d", 11: " line %d"}.get(number, "")
    return book, [f"{name} refused {number}" + place % values]


def fix_command(journal, book):
    return fixing_command(journal, book, "fix")


def interim_command(journal, book):
    return fixing_command(journal, book, "interim")


def settle_command(journal, book):
    month = journal.number()
    readings, losses = (journal.list(name, journal.number) for name in (b"readings", b"losses"))
    number, book, out = settle(book, month, readings, losses, [-1] * journal.count(b"transfers"))
    if number == 0:
        return book, ["settle accepted"] + [f"{i} {out[i]} {book.balance[i]}" for i in range(book.n)]
    return book, [f"settle refused {number}"]


def readsheet_command(journal, book):
    n, sheet = journal.number(), journal.list(b"sheet", journal.byte)
    number, readings = read_sheet(n, sheet, [2 ** 64 - 1] * journal.count(b"readings"))
    if number == 0:
        rows = [" ".join(map(str, [i, *readings[32 * i:32 * i + 32]])) for i in range(n)]
        return book, ["readsheet accepted"] + rows
    return book, [f"readsheet refused {number}"]


def writesheet_command(journal, book):
    n, readings = journal.number(), journal.list(b"readings", journal.number)
    number, used, sheet = write_sheet(n, readings, [255] * journal.count(b"sheet"))
    if number == 0:
        return book, [f"writesheet accepted used {used}", " ".join(map(str, sheet[:used]))]
    return book, [f"writesheet refused {number}"]


def open_command(journal, book):
    number, book = open_ledger(journal.number())
    return book, ["open accepted" if number == 0 else f"open refused {number}"]


def join_command(journal, book):
    number, book = join(book)
    return book, ["join accepted" if number == 0 else f"join refused {number}"]


def save_command(journal, book):
    lists = (("present", list(map(int, book.present)), 8), ("charges", book.charge, 8),
             ("olderpresent", list(map(int, book.older_present)), 8), ("oldercharges", book.older_charge, 8),
             ("balances", book.balance, 1), ("counts", book.count, 1))
    n = 40 if book.n > 40 or any(any(words[each * book.n:]) for _, words, each in lists) else book.n
    rows = [" ".join([name, str(each * n), *map(str, words[:each * n])]) for name, words, each in lists]
    return book, [f"load {book.n} {book.last} {int(book.fixed)} {book.month} {book.day} {int(book.older)}"] + rows


def load_command(journal, book):
    book = Ledger(journal.number())
    book.last, book.fixed, book.month = journal.number(), journal.flag(), journal.number()
    book.day, book.older = journal.number(), journal.flag()
    for held, name, read in ((book.present, b"present", journal.flag), (book.charge, b"charges", journal.signed),
                             (book.older_present, b"olderpresent", journal.flag),
                             (book.older_charge, b"oldercharges", journal.signed),
                             (book.balance, b"balances", journal.signed), (book.count, b"counts", journal.number)):
        given = journal.list(name, read, len(held))
        held[:len(given)] = given
    return book, ["load accepted"]


COMMANDS = {b"open": open_command, b"join": join_command, b"fix": fix_command, b"interim": interim_command, b"settle": settle_command,
            b"save": save_command, b"load": load_command, b"readsheet": readsheet_command, b"writesheet": writesheet_command}


def replay(text):
    if len(text) > MOST_BYTES:
        return [f"journal error at byte {MOST_BYTES}"]
    journal, book, printed = Journal(text), Ledger(), []
    try:
        while journal.next < len(journal.tokens):
            at, word = journal.token()
            if word not in COMMANDS:
                raise Unreadable(at)
            book, rows = COMMANDS[word](journal, book)
            printed += rows
    except Unreadable as place:
        printed.append(f"journal error at byte {place}")
    return printed


if __name__ == "__main__":
    print("".join(line + "\n" for line in replay(sys.stdin.buffer.read())), end="")
