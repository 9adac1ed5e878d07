"""The texts of the console: a function for each, with the values of its fields by name."""
# Written by `python3 -m sothvelm.generate` from examples/commands.txt.
from sothvelm import replies
from sothvelm.request import Request
from sothvelm.texts import KeyType, Scheme


def allow_activity(*, activity: str, minutes: int, first_officers_word: str,
        second_officers_word: str) -> Request[replies.AReply]:
    """A: allow an activity.

    activity: generate, import, export, component or pin.clear, for one type or place alone with .TYPE or .host
    minutes: 0 to 720 minutes without leading zeros, 0 without an end
    first_officers_word: an officer's word: 1 to 64 printable ASCII characters without a space
    second_officers_word: an officer's word: 1 to 64 printable ASCII characters without a space

    Raises FieldFault for a value of another form, and Refused with: 15 a field has no text of its form, or something
    follows the fields; WORDS the officers' words are wrong; FULL 32 grants of other activities live.
    """
    return Request("A", replies.AReply, (activity, minutes, first_officers_word, second_officers_word))


def cancel_activity(*, activity: str) -> Request[replies.CReply]:
    """C: cancel an activity.

    activity: an activity, or * for all of them

    Raises FieldFault for a value of another form, and Refused with: 15 a field has no text of its form, or something
    follows the fields.
    """
    return Request("C", replies.CReply, (activity,))


def show_live_grants() -> Request[replies.VaReply]:
    """VA: show the live grants.

    Raises Refused with: 15 a field has no text of its form, or something follows the fields.
    """
    return Request("VA", replies.VaReply, ())


def show_where_ledger_stands() -> Request[replies.QReply]:
    """Q: show where the ledger stands.

    Raises Refused with: 15 a field has no text of its form, or something follows the fields.
    """
    return Request("Q", replies.QReply, ())


def show_last_entries() -> Request[replies.LogReply]:
    """LOG: show the last entries.

    Raises Refused with: 15 a field has no text of its form, or something follows the fields.
    """
    return Request("LOG", replies.LogReply, ())


def draw_component_of_key(*, key_type: KeyType, scheme: Scheme,
        lmk_set: int | None = None) -> Request[replies.GcReply]:
    """GC: draw a component of a key.

    key_type: a key type: 000, 001, 002, 402, 003, 008, 009, 00A or 00B
    scheme: Z, U or T, for a key of one, two or three parts
    lmk_set: the LMK set, 0 to 3; None names none, which means set 0

    Raises FieldFault for a value of another form, and Refused with: 15 a field has no text of its form, or something
    follows the fields; 04 no key type; 17 an activity that is needed is not allowed; 26 the scheme is wrong; 27 the
    key has a wrong number of parts.
    """
    return Request("GC", replies.GcReply, (key_type, scheme, ...), lmk_set)


def form_key_from_components(*, key_type: KeyType, scheme: Scheme, first_component: str, second_component: str,
        third_component: str | None = None, lmk_set: int | None = None) -> Request[replies.FkReply]:
    """FK: form a key from components.

    key_type: a key type: 000, 001, 002, 402, 003, 008, 009, 00A or 00B
    scheme: Z, U or T, for a key of one, two or three parts
    first_component: 16 hexadecimal digits for each part of the scheme
    second_component: 16 hexadecimal digits for each part of the scheme
    third_component: as the component before it, or nothing
    lmk_set: the LMK set, 0 to 3; None names none, which means set 0

    Raises FieldFault for a value of another form, and Refused with: 15 a field has no text of its form, or something
    follows the fields; 04 no key type; 17 an activity that is needed is not allowed; 26 the scheme is wrong; 27 the
    key has a wrong number of parts; 75 a part of the key equals the part before it.
    """
    return Request("FK", replies.FkReply, (key_type, scheme, first_component, second_component, third_component,
        ...), lmk_set)
