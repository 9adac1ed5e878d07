"""The replies of all commands as data classes. A key or PIN in the clear stands in no `repr`."""
# Written by `python3 -m sothvelm.generate` from examples/commands.txt.
from dataclasses import dataclass, field

from sothvelm.request import Reply


@dataclass(frozen=True)
class A1Reply(Reply):
    """The reply to A0: generate a key."""

    key_under_lmks: str  # a key text: 16 hexadecimal digits; or Z and 16, U and 32, T and 48
    key_under_wrapping_key: str  # a key text, or nothing with mode 0
    check_value: str  # 6 hexadecimal digits


@dataclass(frozen=True)
class A7Reply(Reply):
    """The reply to A6: import a key."""

    key_under_lmks: str  # a key text: 16 hexadecimal digits; or Z and 16, U and 32, T and 48
    check_value: str  # 6 hexadecimal digits


@dataclass(frozen=True)
class A9Reply(Reply):
    """The reply to A8: export a key."""

    key_under_wrapping_key: str  # a key text: 16 hexadecimal digits; or Z and 16, U or X and 32, T or Y and 48
    check_value: str  # 6 hexadecimal digits


@dataclass(frozen=True)
class BVReply(Reply):
    """The reply to BU: check value of a key."""

    check_value: str  # 6 hexadecimal digits


@dataclass(frozen=True)
class CBReply(Reply):
    """The reply to CA: translate a PIN block from a TPK to a ZPK."""

    length_of_pin: str  # 2 decimal digits
    pin_block_under_zpk: str  # 16 hexadecimal digits
    code_of_new_block: str  # a PIN block code: 01, 03, 05 or 47


@dataclass(frozen=True)
class CDReply(Reply):
    """The reply to CC: translate a PIN block from a ZPK to a ZPK."""

    length_of_pin: str  # 2 decimal digits
    pin_block_under_second_zpk: str  # 16 hexadecimal digits
    code_of_new_block: str  # a PIN block code: 01, 03, 05 or 47


@dataclass(frozen=True)
class DFReply(Reply):
    """The reply to DE: offset of a PIN."""

    offset: str  # a PIN, without its fill


@dataclass(frozen=True)
class DHReply(Reply):
    """The reply to DG: PVV of a PIN."""

    pvv: str  # 4 decimal digits


@dataclass(frozen=True)
class DBReply(Reply):
    """The reply to DA: verify a terminal's PIN by its offset."""


@dataclass(frozen=True)
class EBReply(Reply):
    """The reply to EA: verify a PIN from a zone by its offset."""


@dataclass(frozen=True)
class DDReply(Reply):
    """The reply to DC: verify a terminal's PIN by its PVV."""


@dataclass(frozen=True)
class EDReply(Reply):
    """The reply to EC: verify a PIN from a zone by its PVV."""


@dataclass(frozen=True)
class BBReply(Reply):
    """The reply to BA: put a clear PIN under the LMKs."""

    pin_under_lmks: str  # 16 hexadecimal digits


@dataclass(frozen=True)
class NHReply(Reply):
    """The reply to NG: show a PIN that is under the LMKs."""

    pin: str = field(repr=False)  # a PIN, without its fill


@dataclass(frozen=True)
class JBReply(Reply):
    """The reply to JA: draw a PIN."""

    pin_under_lmks: str  # 16 hexadecimal digits


@dataclass(frozen=True)
class CXReply(Reply):
    """The reply to CW: make a CVV."""

    cvv: str  # 3 decimal digits


@dataclass(frozen=True)
class CZReply(Reply):
    """The reply to CY: verify a CVV."""


@dataclass(frozen=True)
class M7Reply(Reply):
    """The reply to M6: make a MAC."""

    mac_or_chaining_value: str  # hexadecimal digits


@dataclass(frozen=True)
class M9Reply(Reply):
    """The reply to M8: verify a MAC."""

    chaining_value: str  # hexadecimal digits


@dataclass(frozen=True)
class B3Reply(Reply):
    """The reply to B2: echo."""

    data: bytes  # all bytes


@dataclass(frozen=True)
class NDReply(Reply):
    """The reply to NC: check of the LMKs."""

    check_of_lmks: str  # 16 hexadecimal digits
    firmware: str  # text


@dataclass(frozen=True)
class NPReply(Reply):
    """The reply to NO: numbers of grants and hosts."""

    live_grants: str  # 2 decimal digits
    host_lanes: str  # 2 decimal digits


@dataclass(frozen=True)
class RBReply(Reply):
    """The reply to RA: cancel all activities."""


@dataclass(frozen=True)
class AReply(Reply):
    """The reply to A: allow an activity."""


@dataclass(frozen=True)
class CReply(Reply):
    """The reply to C: cancel an activity."""

    cancelled_grants: int  # a number


@dataclass(frozen=True)
class VaReply(Reply):
    """The reply to VA: show the live grants."""

    number_of_live_grants: int  # a number
    grants: tuple[str, ...]  # texts


@dataclass(frozen=True)
class QReply(Reply):
    """The reply to Q: show where the ledger stands."""

    moment: int  # a number
    place_of_next_random_word: int  # a number
    live_grants: int  # a number


@dataclass(frozen=True)
class LogReply(Reply):
    """The reply to LOG: show the last entries."""

    number_of_entries: int  # a number
    entries: tuple[str, ...]  # texts


@dataclass(frozen=True)
class GcReply(Reply):
    """The reply to GC: draw a component of a key."""

    component: str = field(repr=False)  # 16 hexadecimal digits for each part of the scheme
    component_under_lmks: str  # a key text: 16 hexadecimal digits; or Z and 16, U and 32, T and 48
    check_value: str  # 6 hexadecimal digits


@dataclass(frozen=True)
class FkReply(Reply):
    """The reply to FK: form a key from components."""

    key_under_lmks: str  # a key text: 16 hexadecimal digits; or Z and 16, U and 32, T and 48
    check_value: str  # 6 hexadecimal digits
