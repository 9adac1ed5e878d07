"""Who is let in: addresses of both families, several ports, TLS with certificates; and what is not passed on."""
import os
import socket
import ssl
import subprocess
import unittest

from gateway import doors
from gateway.tests.harness import WAIT, ClientError, Laboratory, Peer, echo, framed, free_ports, need


class Addresses(unittest.TestCase):
    """Ports and addresses."""

    def test_probes(self) -> None:
        """A client is probed after `keepalive_seconds`, and ends after about twice as long without an answer."""
        (port,) = free_ports(1)
        with doors.opened(("127.0.0.1", port), 12) as door:
            with socket.create_connection(("127.0.0.1", port), WAIT), door.accept()[0] as accepted:
                self.assertNotEqual(accepted.getsockopt(socket.SOL_SOCKET, socket.SO_KEEPALIVE), 0)
                found = [accepted.getsockopt(socket.IPPROTO_TCP, option) for option in (
                    socket.TCP_KEEPIDLE, socket.TCP_KEEPINTVL, socket.TCP_KEEPCNT, socket.TCP_USER_TIMEOUT)]
                self.assertEqual(found, [12, 4, 3, 24_000])

    def test_both_families_and_several_ports(self) -> None:
        first, second, third = free_ports(3)
        listen = f'listen = ["127.0.0.1:{first}", "127.0.0.1:{second}", "[::1]:{third}"]'
        with Laboratory(hosts=2, top=listen) as laboratory:
            for address, port in ("127.0.0.1", first), ("127.0.0.1", second), ("::1", third):
                with Peer(port, address) as peer:
                    self.assertEqual(peer.asked(echo(b"here")), b"B300here")
            names = [line["client"].rpartition(":")[0] for line in laboratory.until(
                lambda: len(laboratory.messages()) == 3 and laboratory.messages(), "no three lines")]
            self.assertEqual(names, ["127.0.0.1", "127.0.0.1", "[::1]"])

    def test_the_list_of_addresses(self) -> None:
        ipv4, ipv6 = free_ports(2)
        top = f'listen = ["127.0.0.1:{ipv4}", "[::1]:{ipv6}"]\nallow = ["192.0.2.0/24", "127.0.0.2", "::1"]'
        with Laboratory(hosts=1, top=top) as laboratory:
            with Peer(ipv4) as peer:
                self.assertTrue(peer.is_ended())
            with Peer(ipv6, "::1") as peer:
                self.assertEqual(peer.asked(echo(b"in")), b"B300in")
            with socket.create_connection(("127.0.0.1", ipv4), WAIT, ("127.0.0.2", 0)) as allowed:
                allowed.sendall(framed(echo(b"in")))
                self.assertEqual(allowed.recv(100), framed(b"B300in"))
            self.assertEqual(laboratory.metric('clients_refused_total{cause="address"}'), 1)
            self.assertEqual(laboratory.until_told("refused", "address"), "the address is not one that may connect")

    def test_the_console_is_not_passed_on(self) -> None:
        """The gateway connects to the lanes alone, and a console's text is a host's message to it."""
        with Laboratory(hosts=2) as laboratory:
            with laboratory.peer(header=b"") as peer:
                peer.stream.sendall(b"\0\x02VA")
                self.assertTrue(peer.is_ended())
            with laboratory.peer(header=b"A pi") as peer:
                self.assertEqual(peer.asked(b"n.clear 10 abc hello"), b"n/68")
            with open("/proc/net/tcp", encoding="ascii") as file:
                ends = [int(words[2][-4:], 16) for words in map(str.split, file) if words[3] == "01"]
            self.assertNotIn(laboratory.console, ends)


class Tls(unittest.TestCase):
    """TLS, with certificates that the command openssl makes."""

    def laboratory(self, clients: bool) -> Laboratory:
        """A gateway that speaks TLS on a second port, and wants certificates of its own authority, or none."""
        need("openssl")
        self.tls = free_ports(1)[0]
        tables = (f'[tls]\nlisten = ["127.0.0.1:{self.tls}"]\ncertificate = "server.pem"\nkey = "server.key"\n'
                  + 'clients = "ours.pem"\n' * clients)
        laboratory = Laboratory(hosts=2, tables=tables)
        for authority in "ours", "theirs":
            self.made(laboratory, authority)
        for name, authority in ("server", "ours"), ("good", "ours"), ("wrong", "theirs"):
            self.made(laboratory, name, authority)
        return laboratory

    def made(self, laboratory: Laboratory, name: str, authority: str = "") -> None:
        """A key and a certificate: of an authority, or signed by one."""
        words = ["openssl", "req", "-x509", "-newkey", "ec", "-pkeyopt", "ec_paramgen_curve:prime256v1", "-nodes",
                 "-days", "2", "-keyout", f"{name}.key", "-out", f"{name}.pem", "-subj", f"/CN={name}"]
        if authority:
            words += ["-CA", f"{authority}.pem", "-CAkey", f"{authority}.key", "-addext", "subjectAltName=IP:127.0.0.1",
                      "-addext", "basicConstraints=critical,CA:false"]
        subprocess.run(words, cwd=laboratory.folder.name, check=True, capture_output=True, timeout=WAIT)

    def context(self, laboratory: Laboratory, name: str | None) -> ssl.SSLContext:
        context = ssl.create_default_context(cafile=laboratory.path("ours.pem"))
        if name:
            context.load_cert_chain(laboratory.path(f"{name}.pem"), laboratory.path(f"{name}.key"))
        return context

    def asked(self, laboratory: Laboratory, name: str | None) -> list[bytes]:
        """The replies to a client with this certificate. Raises OSError or ClientError where it is not let in."""
        with Peer(self.tls) as peer:
            peer.stream = self.context(laboratory, name).wrap_socket(peer.stream, server_hostname="127.0.0.1")
            texts = [echo(b"%d" % number) for number in range(50)]
            peer.put(*texts)
            replies = [peer.reply() for _ in texts]
            # An end in order, with a message under way.
            peer.put(echo(b"!wait0050"))
            peer.stream.unwrap()
            return replies

    def test_certificates_of_clients(self) -> None:
        with self.laboratory(clients=True) as laboratory:
            wanted = [b"B300%d" % number for number in range(50)]
            self.assertEqual(self.asked(laboratory, "good"), wanted)
            for name in "wrong", None:
                with self.assertRaises((OSError, ClientError)):
                    self.asked(laboratory, name)
            laboratory.until_told("refused", "no TLS: ")
            # Who speaks no TLS is not let in at this port, and is at the other one.
            with Peer(self.tls) as peer:
                peer.put(echo(b"plain"))
                self.assertTrue(peer.is_ended())
            with laboratory.peer() as peer:
                self.assertEqual(peer.asked(echo(b"plain")), b"B300plain")
            self.assertEqual(self.asked(laboratory, "good"), wanted)
            self.assertEqual(laboratory.metric('clients_refused_total{cause="handshake"}'), 3)
            self.assertEqual(laboratory.metric("clients_total"), 3)
            laboratory.until(lambda: laboratory.health()["clients"] == 0, "clients are left")
            laboratory.until(lambda: len(laboratory.seen_messages()) == 2 * 51 + 1, "messages are wanting, or too many")

    def test_no_certificates_of_clients(self) -> None:
        with self.laboratory(clients=False) as laboratory:
            self.assertEqual(len(self.asked(laboratory, None)), 50)
            context = ssl.create_default_context(cafile=laboratory.path("theirs.pem"))
            with Peer(self.tls) as peer, self.assertRaises(ssl.SSLCertVerificationError):
                context.wrap_socket(peer.stream, server_hostname="127.0.0.1")

    def test_the_end(self) -> None:
        """On SIGTERM a client over TLS gets the reply to its message, and then the connection's end."""
        with self.laboratory(clients=True) as laboratory, Peer(self.tls) as peer:
            peer.stream = self.context(laboratory, "good").wrap_socket(peer.stream, server_hostname="127.0.0.1")
            peer.put(echo(b"!wait0500"))
            laboratory.until_under_way(1)
            assert laboratory.process is not None
            laboratory.process.terminate()
            self.assertEqual(peer.reply(), b"B300!wait0500")
            self.assertTrue(peer.is_ended())
            self.assertEqual(laboratory.process.wait(WAIT), 143)

    def test_a_client_that_stalls_in_its_handshake(self) -> None:
        with self.laboratory(clients=True) as laboratory, Peer(self.tls) as stalled:
            stalled.stream.sendall(b"\x16\x03")
            self.assertEqual(len(self.asked(laboratory, "good")), 50)
            self.assertEqual(laboratory.health()["clients"], 1)


if __name__ == "__main__":
    assert os.name == "posix"
    unittest.main()
