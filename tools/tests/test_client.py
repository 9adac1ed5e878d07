"""Clients over a port that answers as it is told: texts, replies, refusals, pipelines, asyncio."""
import asyncio
import logging
import unittest

from tests.harness import Answering

from sothvelm import AsyncClient, AsyncConsole, Client, ClientError, Console, FieldFault, Refused
from sothvelm import client as clients
from sothvelm import console_requests, requests

ADDRESS, HEADER = "127.0.0.1", b"0001"
ACCOUNT, KEY, BLOCK = "123456789012", "U70608A485781E63A744063451C9937C8", "5E6CD2CEB7124BBF"
PIN, WORD = "483920", "quicklime"


def echoed(body: bytes) -> bytes:
    """The reply to an echo, and to everything else 68."""
    return HEADER + (b"B300" + body[10:] if body[4:6] == b"B2" else body[4:5] + bytes([body[5] + 1]) + b"68")


class Messages(unittest.TestCase):
    """What is sent."""

    def test_texts(self) -> None:
        cases = [
            (requests.generate_key(mode=0, key_type="002", scheme_under_lmks="U"), "A00002U"),
            (requests.generate_key(mode=1, key_type="001", scheme_under_lmks="U", wrapping_key=KEY,
                                   scheme_under_wrapping_key="X"), f"A01001U{KEY}X"),
            (requests.generate_key(mode=1, key_type="001", scheme_under_lmks="U", kind_of_wrapping_key="1",
                                   wrapping_key=KEY, scheme_under_wrapping_key="X"), f"A01001U;1{KEY}X"),
            (requests.check_value_of_key(lmk_pair="01", flag="1", key_under_lmks=KEY), f"BU011{KEY}"),
            (requests.check_value_of_key(lmk_pair="FF", flag="1", key_under_lmks=KEY, key_type="402"),
             f"BUFF1{KEY};402"),
            (requests.put_clear_pin_under_lmks(pin="1234", account_field=ACCOUNT), f"BA1234FFFFFFFF{ACCOUNT}"),
            (requests.draw_pin(account_field=ACCOUNT, length=4), f"JA{ACCOUNT}04"),
            (requests.make_cvv(cvk_pair=KEY, account_number="4123456789012345", expiry_date="2912", service_code="201"),
             f"CW{KEY}4123456789012345;2912201"),
            (requests.echo(data=b"A\x19%"), "B20003A\x19%"),
            (requests.numbers_of_grants_and_hosts(), "NO00"),
            (requests.verify_mac(mode=1, input_format=0, size=0, algorithm=1, padding=1, key_type="008", key=KEY,
                                 data=b"12345678"), f"M810011008{KEY}000812345678"),
            (console_requests.allow_activity(activity="export", minutes=0, first_officers_word="a",
                                             second_officers_word="b"), "A export 0 a b"),
            (console_requests.cancel_activity(activity="*"), "C *"),
            (console_requests.draw_component_of_key(key_type="000", scheme="U"), "GC 000 U"),
            (console_requests.form_key_from_components(key_type="001", scheme="Z", first_component=BLOCK,
                                                       second_component=BLOCK), f"FK 001 Z {BLOCK} {BLOCK}"),
            (console_requests.show_live_grants(), "VA")]
        for request, text in cases:
            self.assertEqual(request.text(), text)

    def test_an_lmk_set_is_sent_where_it_is_named_and_before_the_trailer(self) -> None:
        self.assertEqual(requests.check_of_lmks(lmk_set=0).text(), "NC%00")
        self.assertEqual(requests.draw_pin(account_field=ACCOUNT, length=4, lmk_set=3, trailer=b"%01").text(),
                         f"JA{ACCOUNT}04%03\x19%01")
        self.assertEqual(requests.check_of_lmks(trailer=b"").text(), "NC\x19")
        self.assertEqual(console_requests.draw_component_of_key(key_type="001", scheme="Z", lmk_set=1).text(),
                         "GC 001 Z %01")
        for request in requests.check_of_lmks(lmk_set=4), requests.check_of_lmks(trailer=33 * b"x"):
            self.assertRaises(FieldFault, request.text)

    def test_a_value_of_another_form_is_told_by_its_field_alone(self) -> None:
        """Nothing is sent, and no text of a field stands in what is told."""
        wrong = [
            (requests.draw_pin(account_field=ACCOUNT, length=3), "JA, field 2, length"),
            (requests.draw_pin(account_field="12345", length=4), "JA, field 1, account field"),
            (requests.put_clear_pin_under_lmks(pin=PIN + "A", account_field=ACCOUNT), "BA, field 1, PIN"),
            (requests.generate_key(mode=1, key_type="001", scheme_under_lmks="U"), "A0, field 5, wrapping key (wanted"),
            (requests.generate_key(mode=0, key_type="001", scheme_under_lmks="U", wrapping_key=KEY), "A0, field 5"),
            (requests.make_mac(mode=0, input_format=1, size=0, algorithm=1, padding=1, key_type="008", key=KEY,
                               data=b"ABC"), "M6, field 10, data"),
            (console_requests.allow_activity(activity="export", minutes=10, first_officers_word=WORD + " x",
                                             second_officers_word="b"), "A, field 3, first officer's word")]
        with Answering(echoed) as port, Client(ADDRESS, port.port) as host:
            for request, words in wrong:
                with self.assertRaises(FieldFault) as caught:
                    host.perform(request)
                self.assertIn(words, str(caught.exception))
                for secret in (PIN, WORD, KEY, ACCOUNT):
                    self.assertNotIn(secret, str(caught.exception))
            self.assertEqual(port.came, [])


class Replies(unittest.TestCase):
    """What is made of replies."""

    def reply(self, text: str, request: "requests.Request[object]") -> object:
        with Answering(lambda _: HEADER + text.encode("latin-1")) as port, Client(ADDRESS, port.port) as host:
            return host.perform(request)

    def test_fields_and_trailer(self) -> None:
        came = self.reply(f"A100{KEY}AABBCC\x19end", requests.generate_key(
            mode=0, key_type="001", scheme_under_lmks="U", trailer=b"end"))
        self.assertEqual((came.key_under_lmks, came.key_under_wrapping_key, came.check_value, came.trailer),
                         (KEY, "", "AABBCC", b"end"))
        came = self.reply("NH001234FFFFFFFF", requests.show_pin_under_lmks(account_field=ACCOUNT, pin_under_lmks=BLOCK))
        self.assertEqual(came.pin, "1234")

    def test_a_refusal_has_code_words_and_field(self) -> None:
        request = requests.translate_pin_block_from_tpk_to_zpk(
            tpk=KEY, zpk=KEY, greatest_length=12, pin_block_under_tpk=BLOCK, code_of_block="01", code_of_new_block="01",
            account_field=ACCOUNT, trailer=b"t")
        with self.assertRaises(Refused) as caught:
            self.reply("CB11\x19t", request)
        found = caught.exception
        self.assertEqual((found.command, found.code, found.check, found.field, found.trailer),
                         ("CA", "11", "keys", 2, b"t"))
        self.assertEqual(found.meaning, "the second key has a byte of even parity")
        self.assertIn("CA was refused with 11: field 2, ZPK: ", str(found))

    def test_replies_of_another_shape(self) -> None:
        request = requests.check_of_lmks()
        for text in ("", "ND", "ND0", "NE00", "ND00", "ND0033C517CEFDC01D4", "ND00" + 15 * "0" + "G"):
            with self.assertRaises(ClientError) as caught:
                self.reply(text, request)
            self.assertNotIsInstance(caught.exception, Refused)
        with self.assertRaises(ClientError):
            self.reply("NP000002x", requests.numbers_of_grants_and_hosts())

    def test_no_reply(self) -> None:
        cases = [(None, "the connection was closed before a reply"),
                 ([b"\0"], "the connection was closed inside the length of a reply, after 1 of 2 bytes"),
                 ([b"\0\x08abc"], "the connection was closed inside a reply, after 3 of 8 bytes")]
        for given, words in cases:
            ended = False

            def answer(_: bytes) -> "list[bytes] | None":
                return given

            with Answering(answer) as port, Client(ADDRESS, port.port) as host:
                if given is not None:
                    host.connection.send(HEADER + b"NC")
                    host.connection.stream.shutdown(1)
                    ended = True
                with self.assertRaises(ClientError) as caught:
                    host.connection.receive() if ended else host.check_of_lmks()
                self.assertEqual(str(caught.exception), words)
        with Answering(lambda _: []) as port, Client(ADDRESS, port.port, timeout=0.2) as host:
            with self.assertRaises(ClientError) as caught:
                host.check_of_lmks()
            self.assertEqual(str(caught.exception), "no reply within 0.2 seconds")
        with Answering(lambda _: b"0002NC00") as port, Client(ADDRESS, port.port) as host:
            with self.assertRaises(ClientError) as caught:
                host.check_of_lmks()
            self.assertEqual(str(caught.exception), "a reply with the header b'0002' in place of b'0001'")

    def test_console(self) -> None:
        answers = {b"VA": b"OK 2 export=0 pin.clear.host=1796230673", b"GC 000 U": f"OK {32 * '1'} {KEY} AABBCC".encode(),
                   b"C *": b"OK 2", b"Q": b"OK 5 6 7", b"LOG": b"OK 1 0:5:U:+"}
        with Answering(lambda body: answers.get(body, b"NO WORDS")) as port, Console(ADDRESS, port.port) as console:
            self.assertEqual(console.show_live_grants().grants, ("export=0", "pin.clear.host=1796230673"))
            self.assertEqual(console.draw_component_of_key(key_type="000", scheme="U").component, 32 * "1")
            self.assertEqual(console.cancel_activity(activity="*").cancelled_grants, 2)
            self.assertEqual(console.show_where_ledger_stands().place_of_next_random_word, 6)
            self.assertEqual(console.show_last_entries().entries, ("0:5:U:+",))
            with self.assertRaises(Refused) as caught:
                console.allow_activity(activity="export", minutes=1, first_officers_word=WORD, second_officers_word="b")
            self.assertEqual((caught.exception.code, caught.exception.words), ("WORDS", "the officers' words are wrong"))
            self.assertNotIn(WORD, str(caught.exception) + repr(caught.exception))


class Secrets(unittest.TestCase):
    """No secret stands where a program would print or log it."""

    def test_none_in_what_is_printed(self) -> None:
        allow = console_requests.allow_activity(activity="export", minutes=1, first_officers_word=WORD,
                                                second_officers_word="b")
        put = requests.put_clear_pin_under_lmks(pin=PIN, account_field=ACCOUNT)
        shown = requests.show_pin_under_lmks(account_field=ACCOUNT, pin_under_lmks=BLOCK).read(f"NH00{PIN}FFFFFF")
        drawn = console_requests.draw_component_of_key(key_type="001", scheme="Z").read(f"OK {BLOCK} {16 * '2'} AABBCC")
        self.assertEqual((shown.pin, drawn.component), (PIN, BLOCK))
        with self.assertLogs() as logged:
            for each in (allow, put, shown, drawn):
                logging.warning("%s %r", each, each)
        for secret in (PIN, WORD, BLOCK):
            self.assertNotIn(secret, "".join(logged.output))


class Pipelines(unittest.TestCase):
    """Messages that are sent together."""

    def test_replies_and_refusals_come_at_their_places(self) -> None:
        with Answering(echoed) as port, Client(ADDRESS, port.port) as host:
            with host.pipeline() as several:
                found = [several.echo(data=b"one"), several.draw_pin(account_field=ACCOUNT, length=4),
                         several.echo(data=b"two")]
                self.assertRaises(ClientError, lambda: found[0].reply)
                self.assertEqual(port.came, [])
            self.assertEqual((found[0].reply.data, found[2].reply.data), (b"one", b"two"))
            with self.assertRaises(Refused) as caught:
                found[1].reply  # noqa: B018
            self.assertEqual(caught.exception.code, "68")
            answers = host.perform_all([requests.echo(data=b"x"), requests.check_of_lmks()])
            self.assertEqual(answers[0].data, b"x")
            self.assertIsInstance(answers[1], Refused)

    def test_more_than_buffers_hold(self) -> None:
        with Answering(echoed) as port, Client(ADDRESS, port.port) as host, host.pipeline() as several:
            found = [several.echo(data=b"%06d" % number + 20_000 * b"x") for number in range(40)]
            several.send()
            self.assertEqual([each.reply.data[:6] for each in found], [b"%06d" % number for number in range(40)])
        with Answering(echoed) as port, Client(ADDRESS, port.port, header="") as host:
            self.assertRaises(ClientError, host.ask, 65_536 * "x")
            self.assertEqual(port.came, [])

    def test_nothing_is_sent_where_the_block_fails(self) -> None:
        with Answering(echoed) as port, Client(ADDRESS, port.port) as host:
            with self.assertRaises(FieldFault), host.pipeline() as several:
                several.echo(data=b"x")
                several.draw_pin(account_field="1", length=4)
            self.assertEqual(port.came, [])


class Asyncio(unittest.IsolatedAsyncioTestCase):
    """The same methods as coroutines."""

    async def test_many_tasks(self) -> None:
        with Answering(echoed) as port:
            async with AsyncClient(ADDRESS, port.port) as host:
                replies = await asyncio.gather(*[host.echo(data=b"%d" % number) for number in range(50)])
                self.assertEqual([each.data for each in replies], [b"%d" % number for number in range(50)])
                with self.assertRaises(Refused):
                    await host.draw_pin(account_field=ACCOUNT, length=4)
                with self.assertRaises(FieldFault):
                    await host.draw_pin(account_field="1", length=4)
            with self.assertRaises(ClientError):
                await host.echo(data=b"x")

    async def test_a_task_that_gave_up(self) -> None:
        """Its late reply is no other message's."""
        held: list[bytes] = []

        def answer(body: bytes) -> list[bytes]:
            held.append(echoed(body))
            return [len(each).to_bytes(2, "big") + each for each in held] if len(held) == 2 else []

        with Answering(answer) as port:
            async with AsyncClient(ADDRESS, port.port, timeout=0.3) as host:
                with self.assertRaises(ClientError):
                    await host.echo(data=b"first")
                self.assertEqual((await host.echo(data=b"second")).data, b"second")

    async def test_the_connection_ends(self) -> None:
        with Answering(lambda body: echoed(body) if b"one" in body else None) as port:
            async with AsyncClient(ADDRESS, port.port) as host:
                await host.echo(data=b"one")
                found = await asyncio.gather(*[host.echo(data=b"two") for _ in range(3)], return_exceptions=True)
                self.assertEqual({type(each) for each in found}, {ClientError})
                with self.assertRaises(ClientError):
                    await host.echo(data=b"one")

    async def test_console(self) -> None:
        with Answering(lambda _: b"OK 1 export=0") as port:
            async with AsyncConsole(ADDRESS, port.port) as console:
                self.assertEqual((await console.show_live_grants()).grants, ("export=0",))


class Names(unittest.TestCase):
    """What a program imports."""

    def test_the_package_names_the_clients(self) -> None:
        self.assertEqual({Client, Console, AsyncClient, AsyncConsole, Refused, ClientError, FieldFault},
                         {getattr(clients, name) for name in clients.__all__} - {clients.Pending})


if __name__ == "__main__":
    unittest.main()
