#!/usr/bin/env python3
"""Says why the first malformed line of a script is malformed: which word of it, and what stands there in docs/SCRIPT.md.

usage: bench/why.py SCRIPT

An aid for people, which proves nothing: nusb_sim decides, and tells the number of the line alone. The forms of lines and steps
are read from the tables of docs/SCRIPT.md. It ends with status 0 where each line has a form, and else with 1."""
import pathlib
import re
import sys

LANGUAGE = pathlib.Path(__file__).parent.parent / "docs/SCRIPT.md"
CALLS_OF_THE_KERNEL = "open readdesc getconfig setconfig reset claim detachclaim detach attach alt speed halt submit".split()
# Words that stand for several, and those of the sub-forms of a selector.
FORMS_OF_WORDS = {"CTL": "TYPE TO HH HHHH HHHH"}
SELECTORS = {"vid": ["HHHH"], "vidpid": ["HHHH", "HHHH"], "class": ["HH"], "classsub": ["HH", "HH"], "classsubproto": ["HH", "HH", "HH"], "serial": ["UTF8"]}


def is_number(word, least, most):
    return re.fullmatch("[0-9]{1,19}", word) is not None and least <= int(word) <= most


def is_bytes(word, most=65536):
    return word == "-" or re.fullmatch("([0-9a-fA-F]{2})+", word) is not None and len(word) <= 2 * most


def is_value(word):
    return word.startswith("=") or is_bytes(word)


def is_text(word):
    """Whether the bytes of a value are UTF-8."""
    if not is_value(word):
        return False
    try:
        (word[1:].encode() if word.startswith("=") else bytes.fromhex(word.replace("-", ""))).decode()
    except UnicodeDecodeError:
        return False
    return True


def is_path(word):
    return word == "/" or word.startswith("/") and all(it not in ("", ".", "..") for it in word[1:].split("/"))


def is_name(word, letters):
    found = re.fullmatch("([a-z])(0|[1-9][0-9]?)", word)
    return found is not None and found[1] in letters and int(found[2]) < 64


# What a word of a form has to be, and how that is said.
KINDS = {
    "N": (lambda it: is_number(it, 0, 65536), "a number of at most 65536, in decimal digits"),
    "L": (lambda it: is_number(it, 0, 65535), "a number of at most 65535, in decimal digits"),
    "B": (lambda it: is_number(it, 0, 255), "a number of at most 255, in decimal digits"),
    "I": (lambda it: is_number(it, 1, 255), "a number from 1 to 255, in decimal digits"),
    "R": (lambda it: is_number(it, 1, 65536), "a number from 1 to 65536, in decimal digits"),
    "T": (lambda it: is_number(it, 0, 2**32 - 1), "a number of at most 4294967295, in decimal digits"),
    "HH": (lambda it: re.fullmatch("[0-9a-fA-F]{2}", it), "two hexadecimal digits, without 0x"),
    "HHHH": (lambda it: re.fullmatch("[0-9a-fA-F]{4}", it), "four hexadecimal digits, without 0x"),
    "BYTES": (is_bytes, "`-`, or an even number of hexadecimal digits for at most 65536 bytes"),
    "DATA": (lambda it: is_bytes(it, 65535), "`-`, or an even number of hexadecimal digits for at most 65535 bytes"),
    "TIME": (lambda it: it == "max" or is_number(it, 0, 10**18), "nanoseconds, a number of at most 10^18, or `max`"),
    "MOMENT": (lambda it: is_number(it, 0, 10**18), "nanoseconds, a number of at most 10^18"),
    "ERRNO": (lambda it: is_number(it, 1, 4095), "an errno, a number from 1 to 4095"),
    "CALL": (CALLS_OF_THE_KERNEL.__contains__, "a call of the kernel: " + ", ".join(CALLS_OF_THE_KERNEL)),
    "KIND": (["bulk-in", "bulk-out", "int-in", "int-out"].__contains__, "bulk-in, bulk-out, int-in or int-out"),
    "TYPE": (["standard", "class", "vendor"].__contains__, "standard, class or vendor"),
    "TO": (["device", "interface", "endpoint", "other"].__contains__, "device, interface, endpoint or other"),
    "X": (lambda it: is_name(it, "di"), "a name of a device or of an interface, as d0 or i0, up to 63"),
    "PATH": (is_path, "a path: `/`, or names with a `/` before each, none of them `.` or `..`"),
    "NAME": (lambda it: "/" not in it, "a name without `/`"),
    "TEXT": (lambda it: True, "a text"),
    "VALUE": (is_value, "`=` and the text itself, or bytes in hexadecimal digits"),
    "UTF8": (is_text, "`=` and the text itself, or bytes of UTF-8 in hexadecimal digits"),
}
# Where a word says less than its kind: docs/SCRIPT.md has these bounds in its text.
NARROWER = {"ctlin": {"N": "L"}, "fin": {"N": "L"}, "ctlout": {"BYTES": "DATA"}, "fout": {"BYTES": "DATA"}, "clock": {"TIME": "MOMENT"}}


def kind_of(word, first):
    """The check of a word of a form, and how it is said."""
    word = NARROWER.get(first, {}).get(word, word)
    if word in KINDS:
        return KINDS[word]
    return lambda it: is_name(it, word), f"a name that begins with `{word}`, as {word}0, with a number up to 63 and no zero before it"


def tables():
    """The forms of setup lines, calls and steps, by first word: the words behind it, and whether it may have steps of its own."""
    found = []
    for section in re.findall(r"^\| (?:line|call|step) \| (?:effect|answers|meaning) \|\n((?:\|.*\n)+)", LANGUAGE.read_text(encoding="utf-8"), re.M):
        forms = {}
        for row in section.splitlines()[1:]:
            for form, steps in re.findall(r"`([^`]+)`( \+)?", row.split(" | ")[0]):
                words = " ".join(FORMS_OF_WORDS.get(it, it) for it in form.split()).split()
                forms.setdefault(words[0], []).append((words[1:], bool(steps)))
        found.append(forms)
    for words, _ in found[1]["string"]:
        words[words.index("B")] = "I"
    return found


SETUP, CALLS, STEPS = tables()


def fault_of_selector(words, place):
    """Why these words, the first of which is at a place of its line, are no selector, or None."""
    at = 0
    while at < len(words):
        kinds = SELECTORS.get(words[at])
        if kinds is None:
            return f"word {place + at}, `{words[at]}`, is none of {', '.join(SELECTORS)}"
        if len(words) - at - 1 < len(kinds):
            return f"`{words[at]}` at the end wants {len(kinds)} word{'s' * (len(kinds) > 1)} more"
        for word, kind in zip(words[at + 1:], kinds):
            at += 1
            if not KINDS[kind][0](word):
                return f"word {place + at}, `{word}`, is not {KINDS[kind][1]}"
        at += 1
    return None


def fault_of_form(words, form, place):
    """Why words do not have this form, or None. The first is at a place of its line."""
    first, rest = words[0], words[1:]
    if form and form[-1] == "SEL":
        form, selector = form[:-1], rest[len(form) - 1:]
        rest = rest[:len(form)]
    else:
        selector = []
    if len(rest) != len(form):
        comment = " (a `#` behind a word begins no comment)" if "#" in " ".join(rest) else ""
        return f"`{first}` takes {len(form)} words ({' '.join(form) or 'none'}), and here are {len(rest)}{comment}"
    for at, (word, wanted) in enumerate(zip(rest, form), place + 1):
        fits, said = kind_of(wanted, first)
        if not fits(word):
            return f"word {at}, `{word}`, is not {said}"
    return fault_of_selector(selector, place + 1 + len(form))


def fault(words, forms, place):
    """Why words have none of these forms, or None: of several forms, what the one says that fits furthest."""
    faults = [fault_of_form(words, form, place) for form, _ in forms]
    if None in faults:
        return None
    return max(faults, key=lambda it: (it.startswith("word"), int((re.findall(r"^word (\d+)", it) or ["0"])[0])))


def fault_of_steps(words, place):
    """Why words are no steps joined by `;`, or None."""
    step = []
    for at, word in enumerate([*words, ";"], place):
        if word != ";":
            step.append(word)
            continue
        if not step:
            return "a step is empty: no `;` stands at an end or beside another, and `!` and `:` want a step"
        if step[0] not in STEPS:
            return f"word {at - len(step)}, `{step[0]}`, is the first word of no step"
        found = fault(step, STEPS[step[0]], at - len(step))
        if found:
            return found
        step = []
    return None


class Script:
    """What the lines before tell of a line."""

    def __init__(self):
        self.has_begun = False
        self.devices, self.places = set(), set()

    def fault_of_setup(self, words):
        if self.has_begun:
            return f"`{words[0]}` declares something, and stands behind the first call or step"
        found = fault(words, SETUP[words[0]], 1)
        if found or words[0] != "device":
            return found
        place = int(words[2]), int(words[3])
        if words[1] in self.devices:
            return f"word 2, `{words[1]}`, is the name of an earlier device"
        if place in self.places:
            return f"an earlier device has the bus {place[0]} and the address {place[1]}"
        self.devices.add(words[1])
        self.places.add(place)
        return None

    def fault_of_call(self, words):
        if words[0] not in CALLS:
            return f"word 1, `{words[0]}`, is the first word of no line"
        at = words.index(":") if ":" in words and words[0] not in ("match", "probe") else len(words)
        may_have_steps = any(steps for _, steps in CALLS[words[0]])
        if at < len(words) and not may_have_steps:
            return f"`{words[0]}` has no steps of its own behind a `:`"
        found = fault(words[:at], CALLS[words[0]], 1)
        if found or at == len(words):
            return found
        return fault_of_steps(words[at + 1:], at + 2)

    def fault(self, line):
        """Why a line is malformed, or None."""
        line = line[:-1] if line.endswith(b"\r") else line
        if line.lstrip(b" ")[:1] in (b"", b"#"):
            return None
        odd = next((it for it in line if not 0x20 <= it <= 0x7E), None)
        if odd is not None:
            return f"the byte {odd:02x} is {'a tab' if odd == 9 else 'none from 20 to 7e'}"
        words = line.decode().split()
        if words[0] in SETUP:
            return self.fault_of_setup(words)
        self.has_begun = True
        return fault_of_steps(words[1:], 2) if words[0] == "!" else self.fault_of_call(words)


def first_fault(text):
    """The number of the first malformed line and why it is, or None."""
    script = Script()
    for number, line in enumerate(text.split(b"\n"), 1):
        found = script.fault(line)
        if found:
            return number, found
    return None


def main(path):
    found = first_fault(pathlib.Path(path).read_bytes())
    print(f"line {found[0]}: {found[1]}" if found else "each line has a form")
    return 1 if found else 0


if __name__ == "__main__":
    sys.exit(main(sys.argv[1]) if len(sys.argv) == 2 else __doc__.strip())
