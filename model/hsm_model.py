"""The host commands, the console and scripts, written a second time over hsm_values.py.

A message is read by the forms of its fields and then checked step by step in the order of its command; the first
refusal is its answer. The scripts of this folder take answers from here, and state the error code of each message
beside it, which must agree. Nothing of the crates is used.
"""
import hashlib
import re

from hsm_values import (
    HEADER, PARTS, SET_T, TYPES, BlockFault, block_pin, check_value, cvv, decipher, drawn, drawn_fill, drawn_pin,
    enciphered_pin, exclusive_or, framed, is_odd, lmk_check, mac_chain, mac_value, natural_pin, odd, offset, pvv,
    repeats_part, sealed, sealed_pin, table_ok, unwrapped, wrapped, wrapping_pair)

# The numbers of parts, and the permits to generate, import and export: Y free, A granted, N never.
LENGTHS = {"000": (2, 3), "402": (2,), "009": (2, 3)}
PERMITS = {"000": "AAN", "402": "YAA", "002": "YYA", "009": "YAN", "00A": "YAA", "00B": "YAN"}
ACTS = {"generate": 0, "import": 1, "export": 2}
MOST_MOMENT, MOST_GRANTS, MOST_NOTES, MOST_MINUTES = 2**40, 32, 16, 720
FIRMWARE = "0001-LAB1"


class Refused(Exception):
    """An error code, or what stands in its place on the console."""


# The forms of fields

HEX = "[0-9A-Fa-f]"
KEYS = {scheme: f"{scheme}{HEX}{{{16 * parts}}}" for scheme, parts in PARTS.items() if scheme != "P"}
KEY = "|".join([HEX + "{16}", KEYS["Z"], KEYS["U"], KEYS["T"]])
PAIR = HEX + "{32}"
TYPE = "|".join(TYPES)
FORMS = {  # form: its text, and its error code where that is not 15
    "K": (KEY,), "P": (f"{PAIR}|{KEYS['U']}",), "W": (f"{KEY}|{KEYS['X']}|{KEYS['Y']}",),
    "type": (TYPE, "04"), "mactype": ("003|008", "04"), "type2": ("FF|0[012389AB]", "04"), "flag": ("[012]", "05"),
    "scheme": ("[ZUT]", "26"), "wscheme": ("[ZUTXY]", "26"), "format": ("01|03|05|47", "23"),
    "len": ("0[4-9]|1[012]",), "[;f]": (";[01]|(?!;)",), "pan": ("[0-9]{12,19};",),
    "12F": ("|".join(f"[0-9]{{{n}}}F{{{12 - n}}}" for n in range(13)),),
    "12V": ("|".join(f"{HEX}{{{n}}}N{HEX}{{{11 - n}}}" for n in range(12)),),
    "0to1": ("[01]",), "0to2": ("[012]",), "0to3": ("[0-3]",), "1or3": ("[13]",), "count": (HEX + "{4}",),
    "00": ("00",), ";": (";",), "[%nn]": ("%[0-9]{2}",),
    "word": (r"[!-~]{1,64}(?![^ ])",), "min": ("(?:0|[1-9][0-9]{0,2})(?![^ ])",),
    "act": (r"[^ ]+(?![^ ])",), "act*": (r"[^ ]+(?![^ ])",)}

FIELDS = {  # code: the forms of its fields; a condition stands before a colon
    "A0": "0to1 type scheme mode1:[;f] mode1:K mode1:wscheme", "A6": "type K W scheme", "A8": "type [;f] K K wscheme",
    "BU": "type2 flag KF FF:; FF:type", "CA": "K K len 16H format format 12N", "CC": "K K len 16H format format 12N",
    "DE": "K 16H len 12N 16N 12V", "DG": "P 16H 12N 1N", "DA": "K K len 16H format len 12N 16N 12V offs",
    "EA": "K K len 16H format len 12N 16N 12V offs", "DC": "K P 16H format 12N 1N 4N",
    "EC": "K P 16H format 12N 1N 4N", "BA": "12F 12N", "NG": "12N 16H", "JA": "12N len", "CW": "P pan 4N 3N",
    "CY": "P 3N pan 4N 3N", "M6": "0to3 0to2 0to1 1or3 0to3 mactype K mode23:16H count data",
    "M8": "0to3 0to2 0to1 1or3 0to3 mactype K mode23:16H count data mode03:mac", "B2": "count data", "NC": "",
    "NO": "00", "RA": ""}
CONSOLE_FIELDS = {
    "A": "act min word word", "C": "act*", "VA": "", "Q": "", "LOG": "", "GC": "type scheme [%nn]",
    "FK": "type scheme comp comp [comp] [%nn]"}
ACTIVITY = re.compile(
    rf"(generate|import|export|component|pin\.clear(?!\.[0-9]))(\.(?:{TYPE}))?(\.host|\.console)?(\.lmk0[0-3])?")


def pattern_of(form, texts):
    """The pattern of a form and the error code of a text that does not stand; texts are the earlier ones."""
    if (plain := re.fullmatch(r"(\d+)([NH])", form)):
        return (HEX if plain[2] == "H" else "[0-9]") + f"{{{plain[1]}}}", "15"
    if form == "KF":
        untagged = {"0": HEX + "{16}|", "1": PAIR + "|", "2": ""}[texts[1]]
        return untagged + "|".join(KEYS[scheme] for scheme in "ZUT"), "15"
    if form == "offs":
        check = int(texts[5])
        return f"[0-9]{{{check}}}F{{{12 - check}}}", "15"
    if form == "data":
        count = int(texts[-1], 16)
        is_text = len(texts) > 1 and texts[1] == "1"
        # No text stands for an odd number of hexadecimal digits.
        return ("(?!)" if is_text and count % 2 else f"(?:{HEX if is_text else '.'}){{{count}}}"), "15"
    if form == "mac":
        return HEX + ("{8}" if texts[2] == "0" else "{16}"), "15"
    if form in ("comp", "[comp]"):
        return HEX + f"{{{16 * PARTS[texts[1]]}}}", "15"
    return (*FORMS[form], "15")[:2]


def is_present(condition, texts):
    """Whether a field of a mode, or one that follows the pair code FF, is there."""
    return texts[0] == "FF" if condition == "FF" else texts[0] in condition.removeprefix("mode")


def read_fields(forms, text, on_console):
    """The texts of the fields, an absent one being empty, and the rest."""
    texts = []
    for entry in forms.split():
        condition, _, form = entry.rpartition(":")
        if (condition and not is_present(condition, texts)) or is_left_out(form, text):
            texts.append("")
            continue
        pattern, code = pattern_of(form, texts)
        found = re.compile((" " if on_console else "") + f"({pattern})", re.DOTALL).match(text)
        if not found or not console_stands(form, found[1]):
            raise Refused(code)
        texts.append(found[1])
        text = text[found.end():]
    return texts, text


def is_left_out(form, text):
    """Whether a field of the console is left out before what is left."""
    return (form == "[%nn]" and not text) or (form == "[comp]" and (not text or text.startswith(" %")))


def console_stands(form, text):
    if form == "act*" and text == "*":
        return True
    if form in ("act", "act*"):
        return bool(read_activity(text))
    return form != "min" or int(text) <= MOST_MINUTES


def read_activity(text):
    """Category, type, place and set; a part that is not named is None."""
    found = ACTIVITY.fullmatch(text)
    return tuple(part and part.lstrip(".") for part in found.groups()) if found else None


def scheme_of(text):
    """The scheme of a key text with its tag, or of 16 or 32 digits."""
    return text[0] if text[0] in "ZUTXY" else {16: "Z", 32: "P"}[len(text)]


def digits_of(text):
    return text.lstrip("ZUTXY")


class Ledger:
    """The moment, the live grants, the place of the next random word and the notes."""

    def __init__(self):
        self.moment = self.place = self.number = 0
        self.grants = []
        self.notes = []

    def enter(self, moment):
        self.moment = max(self.moment, moment)
        self.grants = [(activity, end) for activity, end in self.grants if end == 0 or end > self.moment]
        self.kind, self.good = "U", True

    def leave(self):
        note = f"{self.number}:{self.moment}:{self.kind}:{'+' if self.good else '-'}"
        self.notes = (self.notes + [note])[-MOST_NOTES:]
        self.number += 1

    def covers(self, need):
        return any(
            all(named in (None, wanted) for named, wanted in zip(activity, need)) for activity, _ in self.grants)

    def use(self, *needs):
        if not all(map(self.covers, needs)):
            self.good = False
            raise Refused("17")

    def draw(self, count):
        place = self.place
        self.place += count
        return place

    def authorise(self, activity, minutes):
        self.kind = "A"
        others = [grant for grant in self.grants if grant[0] != activity]
        if len(others) >= MOST_GRANTS:
            self.good = False
            raise Refused("FULL")
        self.grants = others + [(activity, self.moment + 60 * minutes if minutes else 0)]

    def cancel(self, activity):
        self.kind = "C" if activity else "X"
        ended = [grant for grant in self.grants if activity in (None, grant[0])]
        self.grants = [grant for grant in self.grants if grant not in ended]
        return len(ended)


class Hsm:  # one method a command
    """The module of an LMK set, or of several, and its ledger. Messages are given and answered without header."""

    def __init__(self, lmks=SET_T, hosts=2, words=("abc", "hello"), others=()):
        self.sets, self.hosts = (lmks, *others), hosts
        self.name_set("")
        self.officers = [hashlib.sha256(word.encode()).digest() for word in words]
        self.ledger = Ledger()
        self.moment = 0

    def name_set(self, text):
        """The set that a message names by `%` and two digits is that of its keys and needs; it is set 00 else."""
        self.named = int(text[1:] or "0")
        if self.named >= len(self.sets):
            raise Refused("13")
        self.lmks = self.sets[self.named]

    def need(self, category, code, place):
        return category, code, place, f"lmk{self.named:02}"

    def host(self, message):
        """The answer of a host's message."""
        self.ledger.enter(self.moment)
        text = message.decode("latin-1")
        code, rest = text[:2], text[2:]
        reply = code[0] + chr((ord(code[1]) + 1) % 256)
        trailer = ""
        try:
            if code not in FIELDS:
                raise Refused("68")
            fields, rest = read_fields(FIELDS[code], rest, False)
            found = re.fullmatch("((?:%[0-9]{2})?)((?:\x19.{0,32})?)", rest, re.DOTALL)
            if not found:
                raise Refused("15")
            trailer = found[2]
            self.name_set(found[1])
            answer = reply + "00" + getattr(self, code.lower())(*fields)
        except Refused as refused:
            answer = f"{reply}{refused}"
        self.ledger.leave()
        return (answer + trailer).encode("latin-1")

    def console(self, message):
        """The answer of a console's text."""
        self.ledger.enter(self.moment)
        word, space, rest = message.partition(" ")
        try:
            if word not in CONSOLE_FIELDS:
                raise Refused("68")
            fields, rest = read_fields(CONSOLE_FIELDS[word], space + rest, True)
            if rest:
                raise Refused("15")
            self.name_set(fields.pop() if CONSOLE_FIELDS[word].endswith("[%nn]") else "")
            answer = " ".join(["OK", *getattr(self, "text_" + word.lower())(*fields)])
        except Refused as refused:
            answer = f"NO {refused}"
        self.ledger.leave()
        return answer

    # Keys

    def lmk_key(self, code, text, parity, *, wraps=False, parts=None):
        """The key of a text under the LMKs."""
        scheme = scheme_of(text)
        if scheme == "P" and code not in ("002", "402"):
            raise Refused("26")
        self.check_length(code, scheme, wraps, parts)
        key = unwrapped(wrapping_pair(code, self.lmks), scheme, digits_of(text))
        if not is_odd(key):
            raise Refused(parity)
        return key

    @staticmethod
    def check_length(code, scheme, wraps=False, parts=None):
        if PARTS[scheme] not in LENGTHS.get(code, (1, 2, 3)) or (wraps and PARTS[scheme] == 1):
            raise Refused("27")
        if parts and PARTS[scheme] != parts:
            raise Refused("27")

    @staticmethod
    def check_schemes(one, other):
        if PARTS[one] != PARTS[other]:
            raise Refused("26")

    def use_permits(self, code, *acts):
        """29 where an act on the type is never permitted; the activities that are needed at the host else."""
        permits = [(act, PERMITS.get(code, "YYY")[ACTS[act]]) for act in acts]
        if any(permit == "N" for _, permit in permits):
            raise Refused("29")
        return [self.need(act, code, "host") for act, permit in permits if permit == "A"]

    def seal(self, code, scheme, key):
        return sealed(code, scheme, key, self.lmks)

    # Key commands

    def a0(self, mode, code, scheme, kind, text, other):
        if mode == "1":
            self.check_schemes(scheme, other)
        self.check_length(code, scheme)
        if mode == "1":
            kek = self.lmk_key("002" if kind == ";1" else "000", text, "10", wraps=True)
        self.ledger.use(*self.use_permits(code, "generate", *["export"] * (mode == "1")))
        key = drawn(self.ledger.draw(2 * PARTS[scheme]), PARTS[scheme])
        return self.seal(code, scheme, key) + (wrapped(kek, other, key) if mode == "1" else "") + check_value(key)

    def a6(self, code, zmk, text, scheme):
        kek = self.lmk_key("000", zmk, "10", wraps=True)
        given = scheme_of(text)
        self.check_schemes(given, scheme)
        self.check_length(code, given)
        key = unwrapped(kek, given, digits_of(text))
        if not is_odd(key):
            raise Refused("11")
        needs = self.use_permits(code, "import")
        if repeats_part(key):
            raise Refused("75")
        self.ledger.use(*needs)
        return self.seal(code, scheme, key) + check_value(key)

    def a8(self, code, kind, wrapper, text, scheme):
        kek = self.lmk_key("002" if kind == ";1" else "000", wrapper, "10", wraps=True)
        self.check_schemes(scheme_of(text), scheme)
        key = self.lmk_key(code, text, "11")
        needs = self.use_permits(code, "export")
        if repeats_part(key):
            raise Refused("75")
        self.ledger.use(*needs)
        return wrapped(kek, scheme, key) + check_value(key)

    def bu(self, pair, flag, text, _, named):
        code = named or {"00": "000", "01": "001", "02": "002", "03": "003", "08": "008"}.get(pair, "0" + pair)
        return check_value(self.lmk_key(code, text, "10", parts=int(flag) + 1))

    # PIN commands

    def pin_under(self, key, digits, code, account):
        try:
            return block_pin(code, decipher(key, bytes.fromhex(digits)), account)
        except BlockFault as fault:
            raise Refused(str(fault)) from None

    def pin_under_lmk(self, digits, account):
        try:
            return block_pin("01", decipher(self.lmks[1], bytes.fromhex(digits)), account)
        except BlockFault:
            raise Refused("14") from None

    def translate(self, key, zpk, most, block, source, target, account):
        self.ledger.use()
        pin = self.pin_under(key, block, source, account)
        if len(pin) > int(most):
            raise Refused("24")
        count = 14 - len(pin) if target in ("05", "47") else 0
        place = self.ledger.draw(count)
        fill = drawn_fill(target, place, count) if count else ""
        return f"{len(pin):02}" + enciphered_pin(zpk, target, pin, account, fill) + target

    def ca(self, tpk, zpk, *fields):
        return self.translate(self.lmk_key("002", tpk, "10"), self.lmk_key("001", zpk, "11"), *fields)

    def cc(self, first, second, *fields):
        return self.translate(self.lmk_key("001", first, "10"), self.lmk_key("001", second, "11"), *fields)

    def de(self, pvk, digits, check, account, table, validation):
        pvk = self.lmk_key("002", pvk, "10")
        if not table_ok(table):
            raise Refused("25")
        pin = self.pin_under_lmk(digits, account)
        if int(check) > len(pin):
            raise Refused("24")
        return offset(natural_pin(pvk, table, validation, account), pin, int(check))

    def dg(self, pair, digits, account, index):
        pair = self.lmk_key("002", pair, "10")
        return pvv(pair, account, index, self.pin_under_lmk(digits, account))

    def check_offset(self, key, pvk, most, block, form, check, account, table, validation, given):
        if not table_ok(table):
            raise Refused("25")
        pin = self.pin_under(key, block, form, account)
        if len(pin) > int(most) or len(pin) < int(check):
            raise Refused("24")
        if offset(natural_pin(pvk, table, validation, account), pin, int(check)) != given:
            raise Refused("01")
        return ""

    def da(self, tpk, pvk, *fields):
        return self.check_offset(self.lmk_key("002", tpk, "10"), self.lmk_key("002", pvk, "11"), *fields)

    def ea(self, zpk, pvk, *fields):
        return self.check_offset(self.lmk_key("001", zpk, "10"), self.lmk_key("002", pvk, "11"), *fields)

    def check_pvv(self, key, pair, block, form, account, index, given):
        if pvv(pair, account, index, self.pin_under(key, block, form, account)) != given:
            raise Refused("01")
        return ""

    def dc(self, tpk, pair, *fields):
        return self.check_pvv(self.lmk_key("002", tpk, "10"), self.lmk_key("002", pair, "11"), *fields)

    def ec(self, zpk, pair, *fields):
        return self.check_pvv(self.lmk_key("001", zpk, "10"), self.lmk_key("002", pair, "11"), *fields)

    def ba(self, digits, account):
        self.ledger.use(self.need("pin.clear", None, "host"))
        pin = digits.rstrip("F")
        if len(pin) < 4:
            raise Refused("24")
        return sealed_pin(pin, account, self.lmks)

    def ng(self, account, digits):
        self.ledger.use(self.need("pin.clear", None, "host"))
        return self.pin_under_lmk(digits, account).ljust(12, "F")

    def ja(self, account, length):
        return sealed_pin(drawn_pin(self.ledger.draw(int(length)), int(length)), account, self.lmks)

    # Cards, MACs, and the module itself

    def cw(self, pair, pan, expiry, service):
        return cvv(self.lmk_key("402", pair, "10"), pan[:-1], expiry, service)

    def cy(self, pair, given, pan, expiry, service):
        if cvv(self.lmk_key("402", pair, "10"), pan[:-1], expiry, service) != given:
            raise Refused("01")
        return ""

    def m6(self, mode, form, size, algorithm, padding, code, text, chain, _, data):
        key = self.lmk_key(code, text, "10", parts=2 if algorithm == "3" else None)
        data = bytes.fromhex(data) if form == "1" else data.encode("latin-1")
        is_uneven = len(data) % 8 and (mode in "12" or padding == "0")
        if not data or is_uneven or (padding == "3" and mode != "0"):
            raise Refused("80")
        chain = bytes.fromhex(chain or "0" * 16)
        if mode in "12":
            return mac_chain(key, algorithm, chain, data).hex().upper()
        value = mac_value(key, algorithm, chain, padding, data).hex().upper()
        return value if size == "1" else value[:8]

    def m8(self, *fields):
        value = self.m6(*fields[:-1])
        if fields[0] in "12":
            return value
        if value != fields[-1].upper():
            raise Refused("01")
        return ""

    def b2(self, _, data):
        return data

    def nc(self):
        return lmk_check(self.lmks) + FIRMWARE

    def no(self, _):
        self.ledger.kind = "L"
        return f"{len(self.ledger.grants):02}{self.hosts:02}"

    def ra(self):
        self.ledger.cancel(None)
        return ""

    # Console texts

    def text_a(self, activity, minutes, *words):
        if [hashlib.sha256(word.encode()).digest() for word in words] != self.officers:
            raise Refused("WORDS")
        self.ledger.authorise(read_activity(activity), int(minutes))
        return []

    def text_c(self, activity):
        return [str(self.ledger.cancel(None if activity == "*" else read_activity(activity)))]

    def text_va(self):
        self.ledger.kind = "L"
        grants = [".".join(filter(None, activity)) + f"={end}" for activity, end in self.ledger.grants]
        return [str(len(grants)), *grants]

    def text_q(self):
        self.ledger.kind = "L"
        return [str(n) for n in (self.ledger.moment, self.ledger.place, len(self.ledger.grants))]

    def text_log(self):
        self.ledger.kind = "R"
        return [str(len(self.ledger.notes)), *self.ledger.notes]

    def text_gc(self, code, scheme):
        self.check_length(code, scheme)
        self.ledger.use(self.need("component", code, "console"))
        key = drawn(self.ledger.draw(2 * PARTS[scheme]), PARTS[scheme])
        return [key.hex().upper(), self.seal(code, scheme, key), check_value(key)]

    def text_fk(self, code, scheme, *components):
        self.check_length(code, scheme)
        key = bytes(8 * PARTS[scheme])
        for component in filter(None, components):
            key = exclusive_or(key, bytes.fromhex(component))
        key = bytes(map(odd, key))
        if repeats_part(key):
            raise Refused("75")
        self.ledger.use(self.need("component", code, "console"))
        return [self.seal(code, scheme, key), check_value(key)]


class Messages:
    """Messages in the order of their entries, each with its answer. The error code of each is stated beside it."""

    def __init__(self, lmks=SET_T):
        self.hsm = Hsm(lmks)
        self.cases = []

    def add(self, message, code="00", *, trailer=b""):
        text = message.encode("latin-1") + trailer
        answer = self.hsm.host(text)
        assert answer[2:4] == code.encode(), (text, code, answer)
        self.cases.append((text, answer))

    def refused(self, message, code, *, trailer=b""):
        self.add(message, code, trailer=trailer)

    def answered(self, message, answer):
        """A message whose whole answer is known without this model."""
        self.add(message, answer[2:4])
        assert self.cases[-1][1] == answer.encode(), (message, answer, self.cases[-1][1])


def check_codes(groups, codes):
    """The groups' messages of each command must give just these codes."""
    given = {}
    for group in groups.values():
        for message, answer in group().cases:
            given.setdefault(message[:2].decode(), set()).add(answer[2:4].decode())
    assert given == {code: set(wanted.split()) for code, wanted in codes.items()}, given


# Scripts

def read_line(text, hosts):
    """What a line of a script is: nothing, a moment, a piece of a lane or a console's text."""
    if not text or text.startswith("#"):
        return ("skip",)
    if (found := re.fullmatch("T (0|[1-9][0-9]*)", text)) and int(found[1]) <= MOST_MOMENT:
        return "moment", int(found[1])
    if (found := re.fullmatch(f"L([1-9][0-9]*) ((?:{HEX}{HEX})+)", text)) and int(found[1]) <= hosts:
        return "piece", int(found[1]), bytes.fromhex(found[2])
    if (found := re.fullmatch("C ([ -~]{1,1000})", text)):
        return "console", found[1]
    return None


class Run:
    """A script's lines as they are answered: what each line prints, and what stands printed at the end."""

    def __init__(self, hsm):
        self.hsm = hsm
        self.held = {lane: b"" for lane in range(1, hsm.hosts + 1)}  # None is a closed lane.

    def step(self, step):
        """The lines that a line of the script prints."""
        output = []
        if step[0] == "moment":
            self.hsm.moment = step[1]
        elif step[0] == "console":
            output.append("C " + self.hsm.console(step[1]))
        elif step[0] == "piece" and self.held[step[1]] is None:
            output.append(f"L{step[1]} closed")
        elif step[0] == "piece":
            self.held[step[1]] = run_piece(self.hsm, step[1], self.held[step[1]] + step[2], output)
        return output

    def cut(self):
        return [lane for lane, left in self.held.items() if left]

    def closed(self):
        return [lane for lane, left in self.held.items() if left is None]

    def end(self):
        return [f"L{lane} cut" for lane in self.cut()] + [f"END {self.hsm.ledger.number}"]


def run_script(hsm, script):
    """What a script's bytes print and the exit status, or the number of the first line that does not read."""
    steps = [read_line(text, hsm.hosts) for text in script.decode("latin-1").split("\n")]
    if None in steps:
        return 1 + steps.index(None)
    run = Run(hsm)
    output = [printed for step in steps for printed in run.step(step)] + run.end()
    return "".join(text + "\n" for text in output).encode(), 6 if run.cut() or run.closed() else 0


class Lines:
    """The lines of a script, each with the lines that it prints. The answer of each is stated beside it."""

    def __init__(self, lmks=SET_T, others=()):
        self.run = Run(Hsm(lmks, others=others))
        self.lmks, self.others = lmks, others
        self.cases = []

    def line(self, text, *wanted):
        """A line of the script and what it prints."""
        printed = self.run.step(read_line(text, self.run.hsm.hosts))
        assert printed == list(wanted), (text, printed, wanted)
        self.cases.append((text, printed))

    def console(self, text, wanted):
        self.line("C " + text, "C " + wanted)

    def console_ok(self, text):
        """A console's text whose fields are computed alone."""
        printed = self.run.step(read_line("C " + text, 0))
        assert printed[0].startswith("C OK "), (text, printed)
        self.cases.append(("C " + text, printed))
        return printed[0].split()[2:]

    def host(self, message, code="00", *, lane=1, cut=None):
        """A host's message, its frame cut after so many bytes, and the error code of its answer."""
        digits = framed(HEADER + message.encode("latin-1"))
        pieces = [digits[:2 * cut], digits[2 * cut:]] if cut else [digits]
        for piece in pieces:
            printed = self.run.step(("piece", lane, bytes.fromhex(piece)))
            self.cases.append((f"L{lane} {piece}", printed))
        answer = bytes.fromhex(printed[-1].split()[1])[2 + len(HEADER):]
        assert answer[2:4] == code.encode(), (message, code, answer)
        return answer.decode("latin-1")[4:]

    def whole(self):
        """The script and its output, which the whole run must give too."""
        script = "".join(text + "\n" for text, _ in self.cases).encode()
        output = [text for _, printed in self.cases for text in printed] + self.run.end()
        output = "".join(text + "\n" for text in output).encode()
        assert run_script(Hsm(self.lmks, others=self.others), script)[0] == output
        return script, output


def run_piece(hsm, lane, left, output):
    """Answers the whole messages of what a lane holds, and gives what is left, or None where the lane was closed."""
    while len(left) >= 2:
        length = int.from_bytes(left[:2], "big")
        if length < len(HEADER) + 2:
            output.append(f"L{lane} short {length}")
            return None
        if len(left) < 2 + length:
            return left
        body, left = left[2:2 + length], left[2 + length:]
        header, message = body[:len(HEADER)], body[len(HEADER):]
        output.append(f"L{lane} " + framed(header + hsm.host(message)))
    return left
