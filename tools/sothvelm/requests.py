"""The messages of a host's commands: a function for each, with the values of its fields by name."""
# Written by `python3 -m sothvelm.generate` from examples/commands.txt.
from typing import Literal

from sothvelm import replies
from sothvelm.request import Request
from sothvelm.texts import Flag, Format, KeyType, MacType, PairCode, Scheme, WrapScheme


def generate_key(*, mode: int, key_type: KeyType, scheme_under_lmks: Scheme,
        kind_of_wrapping_key: Literal["0", "1"] | None = None, wrapping_key: str | None = None,
        scheme_under_wrapping_key: WrapScheme | None = None, lmk_set: int | None = None,
        trailer: bytes | None = None) -> Request[replies.A1Reply]:
    """A0: generate a key.

    mode: 0 or 1
    key_type: a key type: 000, 001, 002, 402, 003, 008, 009, 00A or 00B
    scheme_under_lmks: Z, U or T, for a key of one, two or three parts
    kind_of_wrapping_key: 0 for a ZMK, 1 for a TMK; None means a ZMK (with mode1 alone)
    wrapping_key: a key text: 16 hexadecimal digits; or Z and 16, U and 32, T and 48 (with mode1 alone)
    scheme_under_wrapping_key: Z, U, T, X or Y, for a key of one, two, three, two or three parts (with mode1 alone)
    lmk_set: the LMK set, 0 to 3; None names none, which means set 0
    trailer: at most 32 bytes, which the reply repeats; None sends none

    Raises FieldFault for a value of another form, and Refused with: 15 a field has no text of its form, or something
    follows the fields; 04 no key type; 10 the first key has a byte of even parity; 17 an activity that is needed is
    not allowed; 26 the scheme is wrong; 27 the key has a wrong number of parts; 29 the type forbids the act.
    """
    return Request("A0", replies.A1Reply, (mode, key_type, scheme_under_lmks, kind_of_wrapping_key, wrapping_key,
        scheme_under_wrapping_key), lmk_set, trailer)


def import_key(*, key_type: KeyType, zmk: str, key_under_zmk: str, scheme_under_lmks: Scheme,
        lmk_set: int | None = None, trailer: bytes | None = None) -> Request[replies.A7Reply]:
    """A6: import a key.

    key_type: a key type: 000, 001, 002, 402, 003, 008, 009, 00A or 00B
    zmk: a key text: 16 hexadecimal digits; or Z and 16, U and 32, T and 48
    key_under_zmk: a key text: 16 hexadecimal digits; or Z and 16, U or X and 32, T or Y and 48
    scheme_under_lmks: Z, U or T, for a key of one, two or three parts
    lmk_set: the LMK set, 0 to 3; None names none, which means set 0
    trailer: at most 32 bytes, which the reply repeats; None sends none

    Raises FieldFault for a value of another form, and Refused with: 15 a field has no text of its form, or something
    follows the fields; 04 no key type; 10 the first key has a byte of even parity; 11 the second key has a byte of
    even parity; 17 an activity that is needed is not allowed; 26 the scheme is wrong; 27 the key has a wrong number
    of parts; 75 a part of the key equals the part before it.
    """
    return Request("A6", replies.A7Reply, (key_type, zmk, key_under_zmk, scheme_under_lmks), lmk_set, trailer)


def export_key(*, key_type: KeyType, kind_of_wrapping_key: Literal["0", "1"] | None = None, wrapping_key: str,
        key_under_lmks: str, scheme_under_wrapping_key: WrapScheme, lmk_set: int | None = None,
        trailer: bytes | None = None) -> Request[replies.A9Reply]:
    """A8: export a key.

    key_type: a key type: 000, 001, 002, 402, 003, 008, 009, 00A or 00B
    kind_of_wrapping_key: 0 for a ZMK, 1 for a TMK; None means a ZMK
    wrapping_key: a key text: 16 hexadecimal digits; or Z and 16, U and 32, T and 48
    key_under_lmks: a key text: 16 hexadecimal digits; or Z and 16, U and 32, T and 48
    scheme_under_wrapping_key: Z, U, T, X or Y, for a key of one, two, three, two or three parts
    lmk_set: the LMK set, 0 to 3; None names none, which means set 0
    trailer: at most 32 bytes, which the reply repeats; None sends none

    Raises FieldFault for a value of another form, and Refused with: 15 a field has no text of its form, or something
    follows the fields; 04 no key type; 10 the first key has a byte of even parity; 11 the second key has a byte of
    even parity; 17 an activity that is needed is not allowed; 26 the scheme is wrong; 27 the key has a wrong number
    of parts; 29 the type forbids the act; 75 a part of the key equals the part before it.
    """
    return Request("A8", replies.A9Reply, (key_type, kind_of_wrapping_key, wrapping_key, key_under_lmks,
        scheme_under_wrapping_key), lmk_set, trailer)


def check_value_of_key(*, lmk_pair: PairCode, flag: Flag, key_under_lmks: str, key_type: KeyType | None = None,
        lmk_set: int | None = None, trailer: bytes | None = None) -> Request[replies.BVReply]:
    """BU: check value of a key.

    lmk_pair: the code of an LMK pair: 00, 01, 02, 03, 08, 09, 0A or 0B; or FF, and the type follows the key
    flag: 0, 1 or 2, for a key of one, two or three parts
    key_under_lmks: a key text with its tag; or 16 digits where the flag is 0, 32 where it is 1
    key_type: a key type: 000, 001, 002, 402, 003, 008, 009, 00A or 00B (with FF alone)
    lmk_set: the LMK set, 0 to 3; None names none, which means set 0
    trailer: at most 32 bytes, which the reply repeats; None sends none

    Raises FieldFault for a value of another form, and Refused with: 15 a field has no text of its form, or something
    follows the fields; 04 no key type; 05 no flag; 10 the first key has a byte of even parity; 26 the scheme is
    wrong; 27 the key has a wrong number of parts.
    """
    return Request("BU", replies.BVReply, (lmk_pair, flag, key_under_lmks, ..., key_type), lmk_set, trailer)


def translate_pin_block_from_tpk_to_zpk(*, tpk: str, zpk: str, greatest_length: int, pin_block_under_tpk: str,
        code_of_block: Format, code_of_new_block: Format, account_field: str, lmk_set: int | None = None,
        trailer: bytes | None = None) -> Request[replies.CBReply]:
    """CA: translate a PIN block from a TPK to a ZPK.

    tpk: a key text: 16 hexadecimal digits; or Z and 16, U and 32, T and 48
    zpk: a key text: 16 hexadecimal digits; or Z and 16, U and 32, T and 48
    greatest_length: a length: 04 to 12
    pin_block_under_tpk: 16 hexadecimal digits
    code_of_block: a PIN block code: 01, 03, 05 or 47
    code_of_new_block: a PIN block code: 01, 03, 05 or 47
    account_field: 12 decimal digits
    lmk_set: the LMK set, 0 to 3; None names none, which means set 0
    trailer: at most 32 bytes, which the reply repeats; None sends none

    Raises FieldFault for a value of another form, and Refused with: 15 a field has no text of its form, or something
    follows the fields; 10 the first key has a byte of even parity; 11 the second key has a byte of even parity; 20
    the block holds no PIN of its code; 23 no PIN block code; 24 the PIN has a wrong length.
    """
    return Request("CA", replies.CBReply, (tpk, zpk, greatest_length, pin_block_under_tpk, code_of_block,
        code_of_new_block, account_field), lmk_set, trailer)


def translate_pin_block_from_zpk_to_zpk(*, first_zpk: str, second_zpk: str, greatest_length: int,
        pin_block_under_first_zpk: str, code_of_block: Format, code_of_new_block: Format, account_field: str,
        lmk_set: int | None = None, trailer: bytes | None = None) -> Request[replies.CDReply]:
    """CC: translate a PIN block from a ZPK to a ZPK.

    first_zpk: a key text: 16 hexadecimal digits; or Z and 16, U and 32, T and 48
    second_zpk: a key text: 16 hexadecimal digits; or Z and 16, U and 32, T and 48
    greatest_length: a length: 04 to 12
    pin_block_under_first_zpk: 16 hexadecimal digits
    code_of_block: a PIN block code: 01, 03, 05 or 47
    code_of_new_block: a PIN block code: 01, 03, 05 or 47
    account_field: 12 decimal digits
    lmk_set: the LMK set, 0 to 3; None names none, which means set 0
    trailer: at most 32 bytes, which the reply repeats; None sends none

    Raises FieldFault for a value of another form, and Refused with: 15 a field has no text of its form, or something
    follows the fields; 10 the first key has a byte of even parity; 11 the second key has a byte of even parity; 20
    the block holds no PIN of its code; 23 no PIN block code; 24 the PIN has a wrong length.
    """
    return Request("CC", replies.CDReply, (first_zpk, second_zpk, greatest_length, pin_block_under_first_zpk,
        code_of_block, code_of_new_block, account_field), lmk_set, trailer)


def offset_of_pin(*, pvk: str, pin_under_lmks: str, check_length: int, account_field: str, decimalisation_table: str,
        validation_data: str, lmk_set: int | None = None, trailer: bytes | None = None) -> Request[replies.DFReply]:
    """DE: offset of a PIN.

    pvk: a key text: 16 hexadecimal digits; or Z and 16, U and 32, T and 48
    pin_under_lmks: 16 hexadecimal digits
    check_length: a length: 04 to 12
    account_field: 12 decimal digits
    decimalisation_table: 16 decimal digits
    validation_data: 12 characters: 11 hexadecimal digits and one N
    lmk_set: the LMK set, 0 to 3; None names none, which means set 0
    trailer: at most 32 bytes, which the reply repeats; None sends none

    Raises FieldFault for a value of another form, and Refused with: 15 a field has no text of its form, or something
    follows the fields; 10 the first key has a byte of even parity; 14 the PIN does not open for the account field; 24
    the PIN has a wrong length; 25 the decimalisation table breaks its rule.
    """
    return Request("DE", replies.DFReply, (pvk, pin_under_lmks, check_length, account_field, decimalisation_table,
        validation_data), lmk_set, trailer)


def pvv_of_pin(*, pvk_pair: str, pin_under_lmks: str, account_field: str, index: str, lmk_set: int | None = None,
        trailer: bytes | None = None) -> Request[replies.DHReply]:
    """DG: PVV of a PIN.

    pvk_pair: a pair under the LMKs: 32 hexadecimal digits, or U and 32
    pin_under_lmks: 16 hexadecimal digits
    account_field: 12 decimal digits
    index: 1 decimal digit
    lmk_set: the LMK set, 0 to 3; None names none, which means set 0
    trailer: at most 32 bytes, which the reply repeats; None sends none

    Raises FieldFault for a value of another form, and Refused with: 15 a field has no text of its form, or something
    follows the fields; 10 the first key has a byte of even parity; 14 the PIN does not open for the account field.
    """
    return Request("DG", replies.DHReply, (pvk_pair, pin_under_lmks, account_field, index), lmk_set, trailer)


def verify_terminals_pin_by_offset(*, tpk: str, pvk: str, greatest_length: int, pin_block_under_tpk: str,
        code_of_block: Format, check_length: int, account_field: str, decimalisation_table: str, validation_data: str,
        offset: str, lmk_set: int | None = None, trailer: bytes | None = None) -> Request[replies.DBReply]:
    """DA: verify a terminal's PIN by its offset.

    tpk: a key text: 16 hexadecimal digits; or Z and 16, U and 32, T and 48
    pvk: a key text: 16 hexadecimal digits; or Z and 16, U and 32, T and 48
    greatest_length: a length: 04 to 12
    pin_block_under_tpk: 16 hexadecimal digits
    code_of_block: a PIN block code: 01, 03, 05 or 47
    check_length: a length: 04 to 12
    account_field: 12 decimal digits
    decimalisation_table: 16 decimal digits
    validation_data: 12 characters: 11 hexadecimal digits and one N
    offset: decimal digits; the fill F to 12 characters is added
    lmk_set: the LMK set, 0 to 3; None names none, which means set 0
    trailer: at most 32 bytes, which the reply repeats; None sends none

    Raises FieldFault for a value of another form, and Refused with: 15 a field has no text of its form, or something
    follows the fields; 01 the value given is not the one computed; 10 the first key has a byte of even parity; 11 the
    second key has a byte of even parity; 20 the block holds no PIN of its code; 23 no PIN block code; 24 the PIN has
    a wrong length; 25 the decimalisation table breaks its rule.
    """
    return Request("DA", replies.DBReply, (tpk, pvk, greatest_length, pin_block_under_tpk, code_of_block,
        check_length, account_field, decimalisation_table, validation_data, offset), lmk_set, trailer)


def verify_pin_from_zone_by_offset(*, zpk: str, pvk: str, greatest_length: int, pin_block_under_zpk: str,
        code_of_block: Format, check_length: int, account_field: str, decimalisation_table: str, validation_data: str,
        offset: str, lmk_set: int | None = None, trailer: bytes | None = None) -> Request[replies.EBReply]:
    """EA: verify a PIN from a zone by its offset.

    zpk: a key text: 16 hexadecimal digits; or Z and 16, U and 32, T and 48
    pvk: a key text: 16 hexadecimal digits; or Z and 16, U and 32, T and 48
    greatest_length: a length: 04 to 12
    pin_block_under_zpk: 16 hexadecimal digits
    code_of_block: a PIN block code: 01, 03, 05 or 47
    check_length: a length: 04 to 12
    account_field: 12 decimal digits
    decimalisation_table: 16 decimal digits
    validation_data: 12 characters: 11 hexadecimal digits and one N
    offset: decimal digits; the fill F to 12 characters is added
    lmk_set: the LMK set, 0 to 3; None names none, which means set 0
    trailer: at most 32 bytes, which the reply repeats; None sends none

    Raises FieldFault for a value of another form, and Refused with: 15 a field has no text of its form, or something
    follows the fields; 01 the value given is not the one computed; 10 the first key has a byte of even parity; 11 the
    second key has a byte of even parity; 20 the block holds no PIN of its code; 23 no PIN block code; 24 the PIN has
    a wrong length; 25 the decimalisation table breaks its rule.
    """
    return Request("EA", replies.EBReply, (zpk, pvk, greatest_length, pin_block_under_zpk, code_of_block,
        check_length, account_field, decimalisation_table, validation_data, offset), lmk_set, trailer)


def verify_terminals_pin_by_pvv(*, tpk: str, pvk_pair: str, pin_block_under_tpk: str, code_of_block: Format,
        account_field: str, index: str, pvv: str, lmk_set: int | None = None,
        trailer: bytes | None = None) -> Request[replies.DDReply]:
    """DC: verify a terminal's PIN by its PVV.

    tpk: a key text: 16 hexadecimal digits; or Z and 16, U and 32, T and 48
    pvk_pair: a pair under the LMKs: 32 hexadecimal digits, or U and 32
    pin_block_under_tpk: 16 hexadecimal digits
    code_of_block: a PIN block code: 01, 03, 05 or 47
    account_field: 12 decimal digits
    index: 1 decimal digit
    pvv: 4 decimal digits
    lmk_set: the LMK set, 0 to 3; None names none, which means set 0
    trailer: at most 32 bytes, which the reply repeats; None sends none

    Raises FieldFault for a value of another form, and Refused with: 15 a field has no text of its form, or something
    follows the fields; 01 the value given is not the one computed; 10 the first key has a byte of even parity; 11 the
    second key has a byte of even parity; 20 the block holds no PIN of its code; 23 no PIN block code; 24 the PIN has
    a wrong length.
    """
    return Request("DC", replies.DDReply, (tpk, pvk_pair, pin_block_under_tpk, code_of_block, account_field, index,
        pvv), lmk_set, trailer)


def verify_pin_from_zone_by_pvv(*, zpk: str, pvk_pair: str, pin_block_under_zpk: str, code_of_block: Format,
        account_field: str, index: str, pvv: str, lmk_set: int | None = None,
        trailer: bytes | None = None) -> Request[replies.EDReply]:
    """EC: verify a PIN from a zone by its PVV.

    zpk: a key text: 16 hexadecimal digits; or Z and 16, U and 32, T and 48
    pvk_pair: a pair under the LMKs: 32 hexadecimal digits, or U and 32
    pin_block_under_zpk: 16 hexadecimal digits
    code_of_block: a PIN block code: 01, 03, 05 or 47
    account_field: 12 decimal digits
    index: 1 decimal digit
    pvv: 4 decimal digits
    lmk_set: the LMK set, 0 to 3; None names none, which means set 0
    trailer: at most 32 bytes, which the reply repeats; None sends none

    Raises FieldFault for a value of another form, and Refused with: 15 a field has no text of its form, or something
    follows the fields; 01 the value given is not the one computed; 10 the first key has a byte of even parity; 11 the
    second key has a byte of even parity; 20 the block holds no PIN of its code; 23 no PIN block code; 24 the PIN has
    a wrong length.
    """
    return Request("EC", replies.EDReply, (zpk, pvk_pair, pin_block_under_zpk, code_of_block, account_field, index,
        pvv), lmk_set, trailer)


def put_clear_pin_under_lmks(*, pin: str, account_field: str, lmk_set: int | None = None,
        trailer: bytes | None = None) -> Request[replies.BBReply]:
    """BA: put a clear PIN under the LMKs.

    pin: decimal digits; the fill F to 12 characters is added
    account_field: 12 decimal digits
    lmk_set: the LMK set, 0 to 3; None names none, which means set 0
    trailer: at most 32 bytes, which the reply repeats; None sends none

    Raises FieldFault for a value of another form, and Refused with: 15 a field has no text of its form, or something
    follows the fields; 17 an activity that is needed is not allowed; 24 the PIN has a wrong length.
    """
    return Request("BA", replies.BBReply, (pin, account_field), lmk_set, trailer)


def show_pin_under_lmks(*, account_field: str, pin_under_lmks: str, lmk_set: int | None = None,
        trailer: bytes | None = None) -> Request[replies.NHReply]:
    """NG: show a PIN that is under the LMKs.

    account_field: 12 decimal digits
    pin_under_lmks: 16 hexadecimal digits
    lmk_set: the LMK set, 0 to 3; None names none, which means set 0
    trailer: at most 32 bytes, which the reply repeats; None sends none

    Raises FieldFault for a value of another form, and Refused with: 15 a field has no text of its form, or something
    follows the fields; 14 the PIN does not open for the account field; 17 an activity that is needed is not allowed.
    """
    return Request("NG", replies.NHReply, (account_field, pin_under_lmks), lmk_set, trailer)


def draw_pin(*, account_field: str, length: int, lmk_set: int | None = None,
        trailer: bytes | None = None) -> Request[replies.JBReply]:
    """JA: draw a PIN.

    account_field: 12 decimal digits
    length: a length: 04 to 12
    lmk_set: the LMK set, 0 to 3; None names none, which means set 0
    trailer: at most 32 bytes, which the reply repeats; None sends none

    Raises FieldFault for a value of another form, and Refused with: 15 a field has no text of its form, or something
    follows the fields.
    """
    return Request("JA", replies.JBReply, (account_field, length), lmk_set, trailer)


def make_cvv(*, cvk_pair: str, account_number: str, expiry_date: str, service_code: str, lmk_set: int | None = None,
        trailer: bytes | None = None) -> Request[replies.CXReply]:
    """CW: make a CVV.

    cvk_pair: a pair under the LMKs: 32 hexadecimal digits, or U and 32
    account_number: 12 to 19 decimal digits
    expiry_date: 4 decimal digits
    service_code: 3 decimal digits
    lmk_set: the LMK set, 0 to 3; None names none, which means set 0
    trailer: at most 32 bytes, which the reply repeats; None sends none

    Raises FieldFault for a value of another form, and Refused with: 15 a field has no text of its form, or something
    follows the fields; 10 the first key has a byte of even parity.
    """
    return Request("CW", replies.CXReply, (cvk_pair, account_number, expiry_date, service_code), lmk_set, trailer)


def verify_cvv(*, cvk_pair: str, cvv: str, account_number: str, expiry_date: str, service_code: str,
        lmk_set: int | None = None, trailer: bytes | None = None) -> Request[replies.CZReply]:
    """CY: verify a CVV.

    cvk_pair: a pair under the LMKs: 32 hexadecimal digits, or U and 32
    cvv: 3 decimal digits
    account_number: 12 to 19 decimal digits
    expiry_date: 4 decimal digits
    service_code: 3 decimal digits
    lmk_set: the LMK set, 0 to 3; None names none, which means set 0
    trailer: at most 32 bytes, which the reply repeats; None sends none

    Raises FieldFault for a value of another form, and Refused with: 15 a field has no text of its form, or something
    follows the fields; 01 the value given is not the one computed; 10 the first key has a byte of even parity.
    """
    return Request("CY", replies.CZReply, (cvk_pair, cvv, account_number, expiry_date,
        service_code), lmk_set, trailer)


def make_mac(*, mode: int, input_format: int, size: int, algorithm: int, padding: int, key_type: MacType, key: str,
        chaining_value: str | None = None, data: bytes, lmk_set: int | None = None,
        trailer: bytes | None = None) -> Request[replies.M7Reply]:
    """M6: make a MAC.

    mode: 0, 1, 2 or 3
    input_format: 0, 1 or 2
    size: 0 or 1
    algorithm: 1 or 3
    padding: 0, 1, 2 or 3
    key_type: the type of a key for MACs: 003 or 008
    key: a key text: 16 hexadecimal digits; or Z and 16, U and 32, T and 48
    chaining_value: 16 hexadecimal digits (with mode23 alone)
    data: the characters of the data field; their count is added
    lmk_set: the LMK set, 0 to 3; None names none, which means set 0
    trailer: at most 32 bytes, which the reply repeats; None sends none

    Raises FieldFault for a value of another form, and Refused with: 15 a field has no text of its form, or something
    follows the fields; 04 no key type; 10 the first key has a byte of even parity; 27 the key has a wrong number of
    parts; 80 the data of the MAC are refused.
    """
    return Request("M6", replies.M7Reply, (mode, input_format, size, algorithm, padding, key_type, key,
        chaining_value, f"{len(data):04X}", data), lmk_set, trailer)


def verify_mac(*, mode: int, input_format: int, size: int, algorithm: int, padding: int, key_type: MacType, key: str,
        chaining_value: str | None = None, data: bytes, mac: str | None = None, lmk_set: int | None = None,
        trailer: bytes | None = None) -> Request[replies.M9Reply]:
    """M8: verify a MAC.

    mode: 0, 1, 2 or 3
    input_format: 0, 1 or 2
    size: 0 or 1
    algorithm: 1 or 3
    padding: 0, 1, 2 or 3
    key_type: the type of a key for MACs: 003 or 008
    key: a key text: 16 hexadecimal digits; or Z and 16, U and 32, T and 48
    chaining_value: 16 hexadecimal digits (with mode23 alone)
    data: the characters of the data field; their count is added
    mac: 8 hexadecimal digits with size 0, 16 with size 1 (with mode03 alone)
    lmk_set: the LMK set, 0 to 3; None names none, which means set 0
    trailer: at most 32 bytes, which the reply repeats; None sends none

    Raises FieldFault for a value of another form, and Refused with: 15 a field has no text of its form, or something
    follows the fields; 01 the value given is not the one computed; 04 no key type; 10 the first key has a byte of
    even parity; 27 the key has a wrong number of parts; 80 the data of the MAC are refused.
    """
    return Request("M8", replies.M9Reply, (mode, input_format, size, algorithm, padding, key_type, key,
        chaining_value, f"{len(data):04X}", data, mac), lmk_set, trailer)


def echo(*, data: bytes, lmk_set: int | None = None, trailer: bytes | None = None) -> Request[replies.B3Reply]:
    """B2: echo.

    data: the characters of the data field; their count is added
    lmk_set: the LMK set, 0 to 3; None names none, which means set 0
    trailer: at most 32 bytes, which the reply repeats; None sends none

    Raises FieldFault for a value of another form, and Refused with: 15 a field has no text of its form, or something
    follows the fields.
    """
    return Request("B2", replies.B3Reply, (f"{len(data):04X}", data), lmk_set, trailer)


def check_of_lmks(*, lmk_set: int | None = None, trailer: bytes | None = None) -> Request[replies.NDReply]:
    """NC: check of the LMKs.

    lmk_set: the LMK set, 0 to 3; None names none, which means set 0
    trailer: at most 32 bytes, which the reply repeats; None sends none

    Raises FieldFault for a value of another form, and Refused with: 15 a field has no text of its form, or something
    follows the fields.
    """
    return Request("NC", replies.NDReply, (), lmk_set, trailer)


def numbers_of_grants_and_hosts(*, lmk_set: int | None = None,
        trailer: bytes | None = None) -> Request[replies.NPReply]:
    """NO: numbers of grants and hosts.

    lmk_set: the LMK set, 0 to 3; None names none, which means set 0
    trailer: at most 32 bytes, which the reply repeats; None sends none

    Raises FieldFault for a value of another form, and Refused with: 15 a field has no text of its form, or something
    follows the fields.
    """
    return Request("NO", replies.NPReply, (...,), lmk_set, trailer)


def cancel_all_activities(*, lmk_set: int | None = None, trailer: bytes | None = None) -> Request[replies.RBReply]:
    """RA: cancel all activities.

    lmk_set: the LMK set, 0 to 3; None names none, which means set 0
    trailer: at most 32 bytes, which the reply repeats; None sends none

    Raises FieldFault for a value of another form, and Refused with: 15 a field has no text of its form, or something
    follows the fields.
    """
    return Request("RA", replies.RBReply, (), lmk_set, trailer)
