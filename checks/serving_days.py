"""Checks of the served program: an acquirer's day and the clients of examples/, and officers beside hosts."""
import contextlib
import io
import re
import sys
import threading
import time

import acquirer
from checks import Failed, run, same
from client import ClientError, Host
from served import HAS_MODEL, PIN_REFUSED, PIN_SHOWN, SHOW_PIN, WAIT, WORKED, Served, framed, serving_check

if HAS_MODEL:
    import hsm_model
    import hsm_values as values


# A day of an acquirer

class Recorded:
    """A client whose texts and replies are kept, in one order with those of others."""

    def __init__(self, client, kept):
        self.client, self.kept = client, kept

    def ask(self, text):
        return self.ask_all([text])[0]

    def ask_all(self, texts):
        replies = self.client.ask_all(texts)
        self.kept += [(isinstance(self.client, Host), *each) for each in zip(texts, replies)]
        return replies


def is_drawn_key(message, reply):
    """Whether the reply to an A0 of scheme U holds one key in each of its fields. In mode 1 the ZMK has scheme U."""
    code = message[3:6]
    key = values.unwrapped(values.wrapping_pair(code), "U", reply[5:37])
    fields = values.sealed(code, "U", key)
    if message[2] == "1":
        kek = values.unwrapped(values.wrapping_pair("000"), "U", message[10:42])
        fields += values.wrapped(kek, message[42], key)
    is_good = values.is_odd(key) and not values.repeats_part(key)
    return is_good and reply == "A100" + fields + values.check_value(key)


def is_same_pin(message, reply, wanted):
    """Whether the reply to a CA, of keys of scheme U, differs from the one wanted in the fill of the block alone."""
    zpk = values.unwrapped(values.wrapping_pair("001"), "U", message[36:68])
    account, code = message[-12:], message[-14:-12]
    pins = [values.block_pin(code, values.decipher(zpk, bytes.fromhex(text[6:22])), account) for text in (reply, wanted)]
    return pins[0] == pins[1] and reply[:6] + reply[22:] == wanted[:6] + wanted[22:]


def is_console_reply(came, wanted, late):
    """Whether a console's reply is the one wanted, with moments that are at most so many seconds later."""
    moment = re.compile("[0-9]{10,}")
    pairs = zip(moment.findall(came), moment.findall(wanted))
    return moment.sub("", came) == moment.sub("", wanted) and all(0 <= int(c) - int(w) <= late for c, w in pairs)


def compare_day(kept, begun):
    """Compares a day's replies with the model's, which draws other keys and fill: nobody knows the program's seed."""
    hsm = hsm_model.Hsm(hosts=2)
    hsm.moment, late = begun, int(time.time()) - begun
    for is_host, text, reply in kept:
        wanted = hsm.host(text.encode("latin-1")).decode("latin-1") if is_host else hsm.console(text)
        if not (is_console_reply(reply, wanted, late) if not is_host else is_drawn_key(text, reply) if text[:2] == "A0"
                else is_same_pin(text, reply, wanted) if text[:2] == "CA" else reply == wanted):
            raise Failed(f"{text!r} was answered {reply!r}; the model answers {wanted!r}")


@serving_check("an acquirer's day, each reply beside the model's", over_model=True)
def acquirers_day():
    begun, kept = int(time.time()), []
    with Served(hosts=2) as served:
        with served.connect(2) as other:
            with served.client(0) as console, served.client(1) as host, contextlib.redirect_stdout(io.StringIO()):
                acquirer.day(Recorded(host, kept), Recorded(console, kept))
            other.wants(b"NC", WORKED[b"NC"])
        compare_day(kept, begun)
        hosts = sum(is_host for is_host, _, _ in kept)
        served.end(0, len(kept) - hosts, hosts, 1)


def run_example(*words):
    """Runs a program of examples/. Gives its status, output and standard error."""
    status, output, told = run(sys.executable, *words, seconds=4 * WAIT)
    return status, output.decode(), told.decode()


@serving_check("examples/acquirer.py and examples/client.py")
def examples():
    client, day = "examples/client.py", "examples/acquirer.py"
    with Served(accept=2) as served:
        console, host = map(str, served.ports)
        served.connect(1).close()
        status, output, told = run_example(day, console, host)
        same("the acquirer's status and errors", (status, told), (0, ""))
        steps = output.splitlines()
        same("its last line", steps[-1].partition(":")[0], "No activity lives at the end")
        same("a console's reply", run_example(client, console, "VA"), (0, "OK 0\n", ""))
        served.made = [2, 2]
        # Five of the steps are the console's.
        served.end(0, 5 + 1, len(steps) - 5)
    usage = "usage: python3 examples/client.py PORT TEXT\n"
    for words in [], ["VA"], [console, "VA", "Q"], ["x", "VA"], ["65536", "VA"]:
        same(f"client.py {words}", run_example(client, *words), (2, "", usage))
    same("acquirer.py with one port", run_example(day, console),
         (2, "", "usage: python3 examples/acquirer.py [CONSOLE_PORT HOST_PORT]\n"))
    same("client.py where nobody listens", run_example(client, host, "0001NC")[:2], (1, ""))


# Officers and hosts

@serving_check("a PIN is shown while the officers allow that, and not after")
def shown_while_granted():
    with Served(hosts=2) as served, served.connect(0) as console, served.connect(1) as host:
        host.wants(SHOW_PIN, PIN_REFUSED)
        console.wants(b"A pin.clear 10 abc wrong", b"NO WORDS")
        host.wants(SHOW_PIN, PIN_REFUSED)
        console.wants(b"A pin.clear 10 abc hello", b"OK")
        host.wants(SHOW_PIN, PIN_SHOWN)
        console.wants(b"C *", b"OK 1")
        host.wants(SHOW_PIN, PIN_REFUSED)
        console.close()
        host.close()
        served.end(0, 3, 4, 0)


@serving_check("officers open and cancel an activity while a host uses it")
def granted_while_used():
    replies, stop = [], threading.Event()

    def use(host):
        with contextlib.suppress(ClientError, OSError):
            while not stop.is_set():
                host.put(framed(SHOW_PIN) * 10)
                replies.extend(host.reply() for _ in range(10))

    def until(count, reply):
        end = time.monotonic() + WAIT
        while replies.count(reply) < count:
            if time.monotonic() > end:
                raise Failed(f"{reply!r} did not come {count} times")
            time.sleep(0.001)

    with Served() as served, served.connect(0) as console, served.connect(1) as host:
        user = threading.Thread(target=use, args=(host,), daemon=True)
        user.start()
        try:
            until(10, PIN_REFUSED)
            console.wants(b"A pin.clear.host 0 abc hello", b"OK")
            until(10, PIN_SHOWN)
            console.wants(b"C pin.clear.host", b"OK 1")
        finally:
            stop.set()
            user.join(2 * WAIT)
        host.wants(SHOW_PIN, PIN_REFUSED)
        letters = "".join({PIN_SHOWN: "s", PIN_REFUSED: "r"}.get(reply, "?") for reply in replies)
        if not re.fullmatch("r+s+r*", letters):
            raise Failed(f"the replies were refused or shown in the order {letters}")
        console.close()
        host.close()
        served.end(0, 2, len(replies) + 1)
