"""Members that run, and sockets that speak to them. All sockets are on 127.0.0.1, at ports that were free, where a test names no
others."""

import contextlib
import random
import signal
import socket
import subprocess

from lib.datagrams import ACK, GROUP, PING, Datagram, Endpoint, decode, encode
from lib.processes import PLACE, Ran, start, swim
from lib.trials import PATIENCE, expect, expect_true, wait_for

PORTS = range(15000, 32000)
ERA_FULL = "error 5 era full\n"
PAGE_ROWS = 30  # as many rows as one answer to `members` has at most
COUNTERS = (
    "eras number_saves peer_saves peer_saves_failed entries ticks joins datagrams_received receive_failures datagrams_sent datagrams_lost refutations"
).split()  # the first lines of an answer to `counters`, by their names
NOTES = (
    "BadDatagram OtherGroup NotSender FromSelf Leap NoNumberLeft TableFull Misdirected RelaysFull UnknownTarget Unasked SaveFailed"
    " Expelled Stopped ReceiveFailed SendFailed TimeOver OtherVersion"
).split()  # and the others, which are notes by their numbers


def free_endpoint(kind):
    """An endpoint that is free, and that the system gives to nobody who asks for any port, as each connection does."""
    while True:
        with socket.socket(socket.AF_INET, kind) as found, contextlib.suppress(OSError):
            found.bind(("127.0.0.1", random.choice(PORTS)))
            return Endpoint(*found.getsockname())


def toml(keys):
    """A settings file of these keys; a key of None is left out."""

    def spelled(value):
        if isinstance(value, (list, tuple)) and not isinstance(value, Endpoint):
            return "[" + ", ".join(map(spelled, value)) + "]"
        return str(value) if isinstance(value, int) else f"'{value}'"

    return "".join(f"{key} = {spelled(value)}\n" for key, value in keys.items() if value is not None)


class Member:
    """A member that `swim run` runs, with quick ticks."""

    def __init__(self, name, me=None, control=None, **keys):
        self.name = name
        self.me = me or free_endpoint(socket.SOCK_DGRAM)
        self.control = control or free_endpoint(socket.SOCK_STREAM)
        self.file = PLACE.folder / f"{name}.state"
        self.config = PLACE.folder / f"{name}.toml"
        self.log = PLACE.folder / f"{name}.log"
        self.keys = {"file": self.file, "group": GROUP, "me": self.me, "control": self.control, "tick_ms": 20, "rules": 1, **keys}
        self.process = None

    def init(self):
        expect(swim("init", self.file, "--group", str(self.keys["group"]), "--me", str(self.me)), Ran(0, "", ""), "init")
        self.config.write_text(toml(self.keys))
        return self

    def fresh(self):
        """The same with a new state file."""
        self.file.unlink(missing_ok=True)
        return self.init()

    def launch(self, by=None, **more):
        """Starts it, by these words or by the program's, and waits for nothing."""
        with self.log.open("ab") as log:
            streams = {"stdin": subprocess.DEVNULL, "stdout": log, "stderr": log}
            self.process = start([*(by or (PLACE.program, "run")), self.config], **{**streams, **more})

    def start(self, **more):
        """Starts it, and waits until it answers."""
        self.launch(**more)
        wait_for(f"{self.config} answers", self.status_or_end)
        return self

    def status_or_end(self):
        expect(self.process.poll(), None, f"the status of a running member ({self.log.read_text()!r})")
        try:
            return self.ask("status")
        except OSError:
            return None

    def connect(self):
        """A connection to its control socket, an endpoint or a path."""
        if isinstance(self.control, Endpoint):
            return socket.create_connection(self.control, PATIENCE)
        stream = socket.socket(socket.AF_UNIX)
        stream.settimeout(PATIENCE)
        stream.connect(str(self.control))
        return stream

    def talk(self, data):
        """The answers to these bytes, over a connection of their own."""
        with self.connect() as stream:
            stream.sendall(data)
            stream.shutdown(socket.SHUT_WR)
            return b"".join(iter(lambda: stream.recv(4096), b"")).decode()

    def ask(self, line):
        return self.talk(f"{line}\n".encode())

    def status(self):
        """Its phase and its number."""
        words = self.ask("status").split()
        expect_true(words[:1] == ["ok"], f"status answers {words}")
        return words[1], int(words[3])

    def rows(self):
        """What it holds of each member, itself among them, by the endpoint: the kind and the number."""
        rows, line = {}, "members"
        while line:
            answer = wait_for(f"{line} finds an era that is not full", lambda line=line: self.unless_full(line)).splitlines()
            expect_true(answer and answer[0] == f"ok {len(answer) - 1}", f"{line} answers {answer}")
            rows |= {who: (kind, int(number)) for kind, who, number in map(str.split, answer[1:])}
            line = f"members {answer[-1].split()[1]}" if len(answer) > PAGE_ROWS else None
        return rows

    def unless_full(self, line):
        """The answer; none where the era was full, which says to send the line again."""
        answer = self.ask(line)
        return None if answer == ERA_FULL else answer

    def holds(self, other):
        return self.rows().get(str(other.me), ("nothing", 0))

    def kill(self):
        self.process.send_signal(signal.SIGKILL)
        self.process.wait(PATIENCE)

    def evidence(self):
        """What it says of itself and of the group, and the end of its log."""
        try:
            said = self.talk(b"status\nmembers\n")
        except OSError as error:
            said = f"{error}\n"
        return f"{self.name}, {self.me}\n{said}{self.log.read_text()[-2000:]}"

    def stop(self):
        expect(self.ask("stop"), "ok stopping\n", "stop")
        expect(self.process.wait(PATIENCE), 0, "the status after stop")


class Peer:
    """A socket that speaks to members as another member would."""

    def __init__(self, me=("127.0.0.1", 0), rules=1):
        self.rules = rules
        self.socket = socket.socket(socket.AF_INET, socket.SOCK_DGRAM)
        self.socket.bind(me)
        self.me = Endpoint(*self.socket.getsockname())
        self.sequence = 0
        self.heard = []

    def ping(self, to, *updates):
        """Sends a ping, and gives its sequence."""
        self.sequence += 1
        self.send(to, encode(Datagram(PING, self.sequence, self.me, to, updates), self.rules))
        return self.sequence

    def send(self, to, data):
        self.socket.sendto(data, to)

    def next(self, seconds):
        """The next datagram, if one comes within so many seconds."""
        self.socket.settimeout(max(seconds, 0.001))
        try:
            self.heard.append(decode(self.socket.recv(2048), self.rules))
        except TimeoutError:
            return None
        return self.heard[-1]

    def acked(self, to, *updates):
        """The ack to a ping."""
        sequence = self.ping(to, *updates)
        return wait_for(f"an ack of {to}", lambda: self.ack_of(sequence))

    def answered(self, to, seconds=0.5):
        """The ack to a ping, which is sent again where none comes within so many seconds."""
        return wait_for(f"an answer of {to}", lambda: self.ack_of(self.ping(to), seconds))

    def ack_of(self, sequence, seconds=0.5):
        """The ack of this sequence; what comes before it is passed over, until nothing comes for so long."""
        while found := self.next(seconds):
            if (found.kind, found.sequence) == (ACK, sequence):
                return found
        return None

    def numbers(self, who):
        """The numbers that the datagrams from `who` said of itself, in order."""
        return [u.number for d in self.heard for u in d.updates if d.sender == who == u.who]

    def greatest_number(self, who):
        return max(self.numbers(who), default=0)
