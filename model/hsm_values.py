"""Keys, PINs, verification values, MACs and random words, computed by OpenSSL's DES and ChaCha20.

The scripts of this folder that print messages and answers stand on it. It needs the command openssl. Nothing of the
crates is used. Keys and blocks are bytes, PINs and account numbers are texts of digits.
"""
import functools
import subprocess

TYPE_VARIANTS = [0x00, 0xA6, 0x5A, 0x6A, 0xDE, 0x2B, 0x50, 0x74, 0x9C, 0xFA]
SCHEME_VARIANTS = {
    "Z": [0], "P": [0, 0], "U": [0xA6, 0x5A], "T": [0x6A, 0xDE, 0x2B], "X": [0, 0], "Y": [0, 0, 0]}
PARTS = {scheme: len(variants) for scheme, variants in SCHEME_VARIANTS.items()}
TYPES = {  # code: LMK pair, variant
    "000": (2, 0), "001": (3, 0), "002": (7, 0), "402": (7, 4), "003": (8, 0), "008": (13, 0),
    "009": (14, 0), "00A": (15, 0), "00B": (16, 0)}
HEADER = b"0001"

ONE = bytes.fromhex("0123456789ABCDEF")
TWO = bytes.fromhex("0123456789ABCDEFFEDCBA9876543210")
THREE = bytes.fromhex("0123456789ABCDEF23456789ABCDEF01456789ABCDEF0123")
TWICE = ONE + ONE
LATER_TWICE = TWO + TWO[8:]
FIRST_AGAIN = TWO + ONE
# A byte of even parity in the first part, and in the last one.
EVEN_ONE = bytes.fromhex("0023456789ABCDEF")
EVEN_TWO = bytes.fromhex("0123456789ABCDEFFEDCBA9876543211")


def odd(byte):
    return byte if bin(byte).count("1") % 2 else byte ^ 1


def is_odd(key):
    return all(byte == odd(byte) for byte in key)


def exclusive_or(left, right):
    return bytes(a ^ b for a, b in zip(left, right, strict=True))


# Encipherment

@functools.cache
def run_openssl(words, text):
    return subprocess.run(["openssl", "enc", *words, "-nopad"], input=text, capture_output=True, check=True).stdout


def cipher_words(key):
    """The words of DES over single blocks; a single part is given twice, which is DES."""
    key = key * 2 if len(key) == 8 else key
    return {16: "-des-ede", 24: "-des-ede3"}[len(key)], "-K", key.hex()


def encipher(key, text):
    """Each block of the text under a key of one to three parts."""
    return run_openssl(cipher_words(key), text)


def decipher(key, text):
    return run_openssl(("-d", *cipher_words(key)), text)


# Keys under LMK pairs and wrapping keys

def counted_pair(k):
    """Pair k of the test set: 8 bytes of 32 + 2k, then 8 of 96 + 2k, made odd."""
    return bytes([odd(32 + 2 * k)] * 8 + [odd(96 + 2 * k)] * 8)


PAIR_E = bytes.fromhex("133457799BBCDFF1") * 2
SET_T = [counted_pair(k) for k in range(20)]
SET_EQUAL = [PAIR_E] * 20
SET_EQUAL_BUT_14 = [TWICE if k == 7 else PAIR_E for k in range(20)]


def varied(key, place, variant):
    return key[:place] + bytes([key[place] ^ variant]) + key[place + 1:]


def tag(scheme):
    return "" if scheme in "ZP" else scheme


def parts_of(key):
    return [key[i:i + 8] for i in range(0, len(key), 8)]


def repeats_part(key):
    parts = parts_of(key)
    return any(part == before for before, part in zip(parts, parts[1:]))


def scheme_keys(kek, scheme):
    """The key that enciphers each part."""
    return [varied(kek, 8, variant) if variant else kek for variant in SCHEME_VARIANTS[scheme]]


def wrapped(kek, scheme, key):
    """The text of a key under a wrapping key."""
    keys = scheme_keys(kek, scheme)
    return tag(scheme) + b"".join(
        encipher(under, part) for under, part in zip(keys, parts_of(key), strict=True)).hex().upper()


def unwrapped(kek, scheme, digits):
    """The key whose text, without its tag, has these digits."""
    return b"".join(
        decipher(under, part)
        for under, part in zip(scheme_keys(kek, scheme), parts_of(bytes.fromhex(digits)), strict=True))


def wrapping_pair(code, lmks=SET_T):
    """The LMK pair of a type."""
    pair, variant = TYPES[code]
    return varied(lmks[pair], 0, TYPE_VARIANTS[variant])


def sealed(code, scheme, key, lmks=SET_T):
    """The text of a key under the LMK pair of its type."""
    return wrapped(wrapping_pair(code, lmks), scheme, key)


def opens_even(code, text):
    """Whether the text of scheme U, under the LMK pair of a type, opens to a key with a byte of even parity."""
    return not is_odd(unwrapped(wrapping_pair(code), "U", text[1:]))


def check_value(key):
    return encipher(key, bytes(8))[:3].hex().upper()


def lmk_check(lmks):
    """The exclusive-or of the zero block under each pair."""
    return functools.reduce(exclusive_or, (encipher(pair, bytes(8)) for pair in lmks)).hex().upper()


# Random words

def words(place, count):
    """The ChaCha20 words of the zero seed from a place on, each as its four bytes, the least significant first.

    OpenSSL reads the counter of blocks as the first 8 bytes of what it calls iv, and the stream as the last 8.
    """
    block = place // 16
    stream = run_openssl(
        ("-chacha20", "-K", bytes(32).hex(), "-iv", (block.to_bytes(8, "little") + bytes(8)).hex()), bytes(256))
    start = 4 * (place - 16 * block)
    return stream[start:start + 4 * count]


def word_numbers(place, count):
    return [int.from_bytes(words(place + i, 1), "little") for i in range(count)]


def drawn(place, parts):
    """The key whose words begin at the place."""
    key = []
    for i in range(parts):
        part = bytes(odd(byte) for byte in words(place + 2 * i, 2))
        if key and part == key[-1]:
            part = bytes(byte ^ 0xF0 for byte in part)
        key.append(part)
    return b"".join(key)


# Keys of two parts for the cases.
TERMINAL, ZONE, VERIFICATION, CARD, AUTHENTICATION = (drawn(place, 2) for place in range(1024, 1044, 4))


def drawn_pin(place, length):
    """A PIN whose digits are the words from the place on, modulo 10."""
    return "".join(str(word % 10) for word in word_numbers(place, length))


def drawn_fill(code, place, count):
    """The fill of a block of code 05 or 47: one word a nibble."""
    low, different = {"05": (0, 16), "47": (10, 6)}[code]
    return "".join(f"{low + word % different:X}" for word in word_numbers(place, count))


# PIN blocks

def account_field(account):
    return bytes.fromhex("0000" + account)


def pin_block(code, pin, account, fill=""):
    """The clear block of a PIN. Blocks of code 05 and 47 take their fill from left to right."""
    counted = f"{len(pin):X}{pin}"
    nibbles = {"01": "0" + counted, "03": pin, "05": "1" + counted, "47": "3" + counted}[code]
    if code in ("05", "47"):
        nibbles += fill[:16 - len(nibbles)]
    block = bytes.fromhex(nibbles.ljust(16, "F"))
    return exclusive_or(block, account_field(account)) if code in ("01", "47") else block


class BlockFault(Exception):
    """The error code of a block that holds no PIN."""


def block_pin(code, block, account):
    """The PIN of a clear block, or BlockFault: 20 for its control, 24 for its length, 20 for the nibbles after it."""
    nibbles = (exclusive_or(block, account_field(account)) if code in ("01", "47") else block).hex().upper()
    if code == "03":
        length = len(nibbles) - len(nibbles.lstrip("0123456789"))
        start = 0
    else:
        if nibbles[0] != {"01": "0", "05": "1", "47": "3"}[code]:
            raise BlockFault("20")
        length = int(nibbles[1], 16)
        start = 2
    if not 4 <= length <= 12:
        raise BlockFault("24")
    pin, fill = nibbles[start:start + length], nibbles[start + length:]
    allowed = {"01": "F", "03": "F", "05": "0123456789ABCDEF", "47": "ABCDEF"}[code]
    if not pin.isdecimal() or fill.strip(allowed):
        raise BlockFault("20")
    return pin


def enciphered_pin(key, code, pin, account, fill=""):
    """The digits of a PIN block under a key."""
    return encipher(key, pin_block(code, pin, account, fill)).hex().upper()


def sealed_pin(pin, account, lmks=SET_T):
    """The PIN under the LMKs: its block of code 01 under pair 02-03."""
    return enciphered_pin(lmks[1], "01", pin, account)


# Verification values

def selected(block, count):
    """The decimal nibbles from the left, then the letters from the left less 10."""
    nibbles = block.hex()
    digits = [n for n in nibbles if n.isdecimal()] + [str(int(n, 16) - 10) for n in nibbles if not n.isdecimal()]
    return "".join(digits[:count])


def pvv(pair, account, index, pin):
    return selected(encipher(pair, bytes.fromhex(account[-11:] + index + pin[:4])), 4)


def validation_block(validation, account):
    """The validation data with the last five account digits in the place of its N."""
    return bytes.fromhex(validation.replace("N", account[-5:]))


def natural_pin(pvk, table, validation, account):
    """The 16 digits of the table at the nibbles of the enciphered validation block."""
    return "".join(table[int(n, 16)] for n in encipher(pvk, validation_block(validation, account)).hex())


def offset(natural, pin, check):
    """The digits of the PIN less the natural ones, filled with F to 12 characters."""
    return "".join(str((int(p) - int(n)) % 10) for p, n in zip(pin[:check], natural)).ljust(12, "F")


def table_ok(table):
    """Whether at least 8 different digits occur in a decimalisation table, and none more than 4 times."""
    return len(set(table)) >= 8 and max(map(table.count, table)) <= 4


def cvv(pair, pan, expiry, service):
    blocks = parts_of(bytes.fromhex((pan + expiry + service).ljust(32, "0")))
    return selected(encipher(pair, exclusive_or(encipher(pair[:8], blocks[0]), blocks[1])), 3)


# MACs

def mac_padded(padding, data):
    """The padded data of a whole message."""
    if padding == "2":
        data += b"\x80"
    if padding == "3":
        data = (8 * len(data)).to_bytes(8, "big") + data
    return data if padding == "0" else data + bytes(-len(data) % 8)


def mac_chain(key, algorithm, chain, data):
    """The chaining value after whole blocks."""
    for block in parts_of(data):
        chain = encipher(key[:8] if algorithm == "3" else key, exclusive_or(chain, block))
    return chain


def mac_value(key, algorithm, chain, padding, data):
    """The MAC of padded data that follow a chaining value."""
    value = mac_chain(key, algorithm, chain, mac_padded(padding, data))
    return encipher(key[:8], decipher(key[8:], value)) if algorithm == "3" else value


# Scripts and tables of cases

def framed(body):
    """The digits of a framed message."""
    return (len(body).to_bytes(2, "big") + body).hex().upper()


def line(text, lane=1):
    """The line of a script that holds a message, given without header."""
    return f"L{lane} " + framed(HEADER + text)


def literal(text):
    """The text as a byte string."""
    out = "".join(chr(b) if 32 <= b < 127 and b not in b'"\\' else f"\\x{b:02X}" for b in text)
    return f'b"{out}"'


def print_groups(groups, names):
    """Prints groups of messages with their answers as the words say: `cases`, `script` or `output`, then groups."""
    check_known()
    what = names.pop(0) if names and names[0] in ("cases", "script", "output") else "cases"
    for name in names or groups:
        cases = groups[name]().cases
        if what == "cases":
            print(f"# {name}: {len(cases)} messages")
            for message, answer in cases:
                print(f"({literal(message)}, {literal(answer)}),")
        elif what == "script":
            print("\n".join(line(message) for message, _ in cases))
        else:
            print("\n".join(line(answer) for _, answer in cases))
            print(f"END {len(cases)}")


def check_known():
    """Values that stand elsewhere, for these functions themselves."""
    assert check_value(TWO) == "08D7B4"
    assert check_value(ONE) == "D5D44F"
    assert drawn(0, 2).hex().upper() == "76B9E0ADA1F13D91405D6BE55286BC29"
    assert drawn(4, 2).hex().upper() == "BCD319B9A18CEC1AA837EFCD8A760DC7"
    assert encipher(bytes.fromhex("133457799BBCDFF1"), ONE).hex().upper() == "85E813540F0AB405"
    assert encipher(ONE, bytes.fromhex("4E6F772069732074")).hex().upper() == "3FA40E8A984D4815"
    assert encipher(bytes([1] * 8), bytes(8)).hex().upper() == "8CA64DE9C1B123A7"
    assert sealed("001", "Z", ONE, SET_EQUAL) == "85E813540F0AB405"
    assert lmk_check(SET_EQUAL) == "0" * 16
    for code, fill, block in [
            ("01", "", "041226CBA9876FED"), ("03", "", "1234FFFFFFFFFFFF"),
            ("05", "0" * 10, "1412340000000000"), ("47", "F" * 10, "341226CBA9876FED")]:
        assert pin_block(code, "1234", "123456789012", fill).hex().upper() == block
        assert block_pin(code, bytes.fromhex(block), "123456789012") == "1234"
    for code, block, fault in [
            ("47", "3412263456789012", "20"), ("03", "123FFFFFFFFFFFFF", "24"),
            ("03", "1234AFFFFFFFFFFF", "20"), ("47", "041226CBA9876FED", "20")]:
        try:
            assert not block_pin(code, bytes.fromhex(block), "123456789012")
        except BlockFault as found:
            assert str(found) == fault
    assert drawn_pin(0, 4) == "4621"
    assert drawn_fill("47", 0, 2) == "AA"
    assert selected(bytes.fromhex("A7B3C9D1E4F60258"), 4) == "7391"
    assert selected(bytes.fromhex("ABCDEFABCDEF12AB"), 4) == "1201"
    assert offset("7391", "1234", 4) == "4943FFFFFFFF"
    assert validation_block("12345678901N", "123456789012").hex() == "1234567890189012"
    assert not table_ok("0123456789000000") and table_ok("0123456789012345")
    assert not table_ok("0123456012345601") and table_ok("0123456701234567")
    assert mac_value(ONE, "1", bytes(8), "1", b"7654321 Now is the time for ")[:4].hex().upper() == "F1D30F68"
