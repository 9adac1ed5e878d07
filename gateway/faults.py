"""The rules by which some messages are delayed, refused or dropped, for tests of a switch. None unless named."""
import random

from gateway.settings import FaultRule


class Faults:
    """Rules in their order; of those that speak of a message's command, the first whose share it falls in applies."""

    def __init__(self, rules: tuple[FaultRule, ...], seed: int) -> None:
        self.rules = [(rule, rule.command and rule.command.encode("ascii")) for rule in rules]
        self.random = random.Random(seed)

    def choose(self, command: bytes) -> FaultRule | None:
        """The rule that applies to a message with these two bytes of command code, or None."""
        for rule, wanted in self.rules:
            if wanted in (None, command) and self.random.random() < rule.share:
                return rule
        return None


def refused(frame: bytes, header: int, code: str, trailer: bytes) -> bytes:
    """The reply to a framed message that bears this error code: the header, the reply's code, the code, the trailer."""
    command = header + 2
    body = frame[2:command + 1] + bytes([(frame[command + 1] + 1) % 256]) + code.encode("ascii") + trailer
    return len(body).to_bytes(2, "big") + body
