"""Random traces, and traces with one line changed, left out, doubled or moved."""
import collections
import random

STATUSES = {0: "ok", 2: "cancelled", 104: "cancelled", 110: "cancelled", 32: "stall", 19: "disconnected", 108: "disconnected", 22: "invalid"}
STATUSES |= dict.fromkeys((62, 70, 71, 75, 84), "fault")
ERRNOS = [2, 5, 19, 22, 32, 62, 71, 84, 104, 108, 110, 4095]
MAXIMA = [0, 1, 2, 8, 64]


def hexadecimal(data):
    return data.hex() or "-"


class Ticket:
    def __init__(self, device, address, maximum, length):
        self.device, self.address, self.maximum, self.length = device, address, maximum, length
        self.count, self.errno, self.is_refused, self.is_reaped = 0, None, False, False

    def take_packet(self, length):
        if length > self.maximum:
            self.errno = 75
            return
        self.count += length
        if length < self.maximum or self.count >= self.length:
            self.errno = 0

    def acknowledge(self):
        taken = min(self.maximum, self.length - self.count)
        self.count += taken
        if self.count == self.length:
            self.errno = 0
        return taken

    def status(self):
        if not self.is_reaped:
            return "open"
        if self.is_refused and self.errno in (2, 104, 110):
            return f"unknown:{self.errno}"
        return STATUSES.get(self.errno, f"unknown:{self.errno}")


class Trace:
    """Lines of events that act."""

    def __init__(self, random):
        self.random = random
        self.lines, self.tickets, self.gone = ["nusb-trace 1"], [], set()

    def places(self):
        return [(d, e) for d in (0, 3, 255) for e in (0x00, 0x02, 0x80, 0x81)]

    def oldest(self, device, address):
        return next((it for it in self.tickets if it.errno is None and (it.device, it.address) == (device, address)), None)

    def submit(self, is_refused):
        device, address = self.random.choice(self.places())
        if device in self.gone and not is_refused:
            return
        maximum = self.random.choice(MAXIMA)
        length = maximum * self.random.randint(1, 3)
        if address < 128 or is_refused:
            length = self.random.randint(0, 20)
        body = f"in {length}" if address >= 128 else f"out {hexadecimal(self.random.randbytes(length))}"
        last, ticket = self.random.choice(["-", "0", "18446744073709551615"]), Ticket(device, address, maximum, length)
        if is_refused:
            ticket.errno, ticket.is_refused, ticket.is_reaped = self.random.choice(ERRNOS), True, True
            last = str(ticket.errno)
        word = "refuse" if is_refused else "submit"
        self.lines.append(f"{word} {len(self.tickets)} {device} {address:02x} {maximum} {body} {last}")
        self.tickets.append(ticket)

    def step(self):
        device, address = self.random.choice(self.places())
        ticket = self.oldest(device, address)
        if ticket is None:
            return
        kind = self.random.random()
        other = self.oldest(device, self.random.choice([0x80, 0x81]))
        if kind < 0.1:
            ticket.errno = self.random.choice(ERRNOS)
            self.lines.append(f"fail {device} {address:02x} {ticket.errno}")
        elif address >= 128:
            length = self.random.choice([0, 1, ticket.maximum, ticket.maximum, ticket.maximum + (kind > 0.9)])
            ticket.take_packet(length)
            self.lines.append(f"pkt {device} {address:02x} {hexadecimal(self.random.randbytes(length))}")
        elif kind < 0.5 and other:
            other.take_packet(ticket.acknowledge())
            self.lines.append(f"echo {device} {address:02x} {other.address:02x}")
        else:
            ticket.acknowledge()
            self.lines.append(f"ack {device} {address:02x}")

    def choose(self, is_wanted):
        return self.random.choice([n for n, it in enumerate(self.tickets) if is_wanted(it)] or [None])

    def discard(self):
        number = self.choose(lambda it: it.errno is None)
        if number is not None:
            self.tickets[number].errno = 2
            self.lines.append(f"discard {number}")

    def reap(self):
        number = self.choose(lambda it: it.errno is not None and not it.is_reaped)
        if number is not None:
            self.tickets[number].is_reaped = True
            self.lines.append(f"reap {number}")

    def unplug(self):
        device = self.random.choice([0, 3, 255])
        if device not in self.gone:
            self.gone.add(device)
            for ticket in self.tickets:
                if ticket.device == device and ticket.errno is None:
                    ticket.errno = 108
            self.lines.append(f"unplug {device}")

    def finish(self):
        fates = [f"fate {number} {it.status()} {it.count}" for number, it in enumerate(self.tickets)]
        return [*self.lines, *fates, "end"]


def trace(seed):
    """The lines of a random trace."""
    chance = random.Random(f"trace {seed}")
    made = Trace(chance)
    acts = [lambda: made.submit(False), lambda: made.submit(True), made.step, made.discard, made.reap, made.unplug]
    for act in chance.choices(acts, weights=[10, 1, 14, 1, 8, 0.2], k=chance.randint(0, 40)):
        act()
    return made.finish()


def changed_word(chance, line):
    """A line with one word changed, or one of its letters."""
    words = line.split(" ")
    at = chance.randrange(len(words))
    word = words[at]
    if word.isdigit() and chance.random() < 0.5:
        words[at] = str(max(0, int(word) + chance.choice([-1, 1])))
    elif chance.random() < 0.5:
        words[at] = chance.choice(["0", "1", "2", "64", "81", "02", "-", "ok", "open", "in", "out", "00", "unknown:7", ""])
    else:
        place = chance.randrange(len(word) + 1)
        words[at] = word[:place] + chance.choice("0123456789abA-: \r") + word[place + chance.randint(0, 1) :]
    return " ".join(words)


def change(chance, lines):
    """Changes one line, leaves it out, doubles it or moves it, and says which."""
    at, kind = chance.randrange(len(lines)), chance.choice(["changed", "left out", "doubled", "moved"])
    line = lines.pop(at)
    if kind == "changed":
        lines.insert(at, changed_word(chance, line))
    elif kind == "doubled":
        lines[at:at] = [line, line]
    elif kind == "moved":
        lines.insert(chance.randint(0, len(lines)), line)
    return kind


def text(seed, lines):
    """A trace, in one of five unchanged, and what was done to it."""
    chance = random.Random(f"change {seed}")
    kind = "as it is" if seed % 5 == 0 else change(chance, lines)
    made = "".join(f"{line}\n" for line in lines)
    if seed % 50 == 1:
        made, kind = made[:-1], "cut off"
    return made.encode(), kind


def compare(answer, program, other, made_traces):
    """Compares what two programs answer to texts. `answer` runs one on words and a text. Gives what the texts came to, or the first difference."""
    seen = collections.Counter()
    for seed, lines in made_traces:
        made, kind = text(seed, lines)
        one, two = answer(program, made, "check"), answer(other, made, "check")
        if one != two:
            return seen, (seed, made, one, two)
        verdict = one[1].decode().split()
        seen[f"{kind}: {verdict[0] if verdict else 'malformed'}"] += 1
    return seen, None
