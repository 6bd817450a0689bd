"""A member whose lives may be traced by strace, or end at any moment, and what is said to it."""

import contextlib
import itertools
import os
import select
import shutil
import signal
import socket
import subprocess
import time
from pathlib import Path

from lib.datagrams import ACK, ALIVE, GROUP, PING, SUSPECT, Datagram, encode, is_kind, own_numbers, sequence_of, six_bytes
from lib.members import Member, toml
from lib.power.state_file import owner_bytes
from lib.power.trace import NAMING, WATCHED
from lib.processes import PLACE, start
from lib.trials import PATIENCE, Wrong, undisturbed

CONTROL_SECONDS = 0.9  # that a control connection may be open
TEXT_MAX = 1 << 20  # bytes that strace shows of a text


def why_not_traced():
    """Why no process can be traced here; none if it can."""
    if not shutil.which("strace"):
        return "there is no strace"
    ran = subprocess.run(["strace", "-f", "-o", "/dev/null", "true"], stderr=subprocess.PIPE, check=False)
    return ran.stderr.decode().strip() if ran.returncode else None


class Traced(Member):
    """A folder with a state file, an endpoint, and the lives of one member in it. In the end it leaves no process."""

    def __init__(self, name, folder=None, **keys):
        super().__init__(name, **{"tick_ms": 50, **keys})
        self.place = PLACE.folder / name
        self.folder = folder or self.place / "state"  # has the state file and nothing else
        self.folder.mkdir(parents=True, exist_ok=True)
        self.place.mkdir(parents=True, exist_ok=True)
        self.file, self.config = self.folder / "member.state", self.place / "member.toml"
        self.keys["file"] = self.file
        self.six, self.owner = six_bytes(self.me), owner_bytes(GROUP, *self.me)
        self.peers = [self.peer() for _ in range(3)]
        self.runs = itertools.count(1)
        self.sequence, self.heard = 0, 0
        self.trace = None

    def peer(self):
        peer = socket.socket(socket.AF_INET, socket.SOCK_DGRAM)
        peer.bind(("127.0.0.1", 0))
        return peer

    def __enter__(self):
        return self

    def __exit__(self, *_):
        with undisturbed():
            self.kill()
            for peer in self.peers:
                peer.close()

    # Lives.

    def launch(self, words, before=(), prefix=()):
        """Starts the program with these words; `before` and `prefix` are commands that start it in their turn."""
        self.log = self.place / f"said.{next(self.runs)}"
        with self.log.open("wb") as said, undisturbed():
            streams = {"stdin": subprocess.DEVNULL, "stdout": said, "stderr": said}
            # SIGXFSZ stays ignored, as Python has it, so that a limit of the length is an error and no end.
            self.process = start([*before, *prefix, PLACE.program, *words], restore_signals=False, **streams)

    def launch_traced(self, words, inject=(), prefix=()):
        """Starts it under strace; these rules say which calls fail."""
        self.trace = self.place / f"trace.{next(self.runs)}"
        rules = itertools.chain.from_iterable(("-e", f"inject={rule}") for rule in inject)
        options = ("-f", "-q", "-o", self.trace, "-xx", "-s", TEXT_MAX, "-e", "trace=" + ",".join(f"?{name}" for name in (*WATCHED, *NAMING)))
        self.launch(words, ("strace", *options, *rules), prefix)

    def init_words(self):
        return ["init", self.file, "--group", GROUP, "--me", self.me]

    def init(self, traced=False, **more):
        """Makes the state file, and gives the status; none if it does not end."""
        (self.launch_traced if traced else self.launch)(self.init_words(), **more)
        try:
            return self.process.wait(PATIENCE)
        except subprocess.TimeoutExpired:
            self.kill()
            return None

    def run(self, traced=False, inject=(), prefix=(), **keys):
        self.config.write_text(toml(self.keys | keys))
        words = ["run", self.config]
        if traced:
            self.launch_traced(words, inject, prefix)
        else:
            self.launch(words, prefix=prefix)

    def process_id(self):
        """The member's own, also under strace, which may not have started it yet. None if it has ended."""
        if self.process.args[0] != "strace":
            return self.process.pid
        while not self.has_ended():
            if found := self.traced_child():
                return found
            time.sleep(0.002)
        return None

    def traced_child(self):
        """The child of strace that is no strace any more: it has others for a moment, by which it tries what the system can do."""
        children = Path(f"/proc/{self.process.pid}/task/{self.process.pid}/children")
        with contextlib.suppress(OSError):
            for child in children.read_text().split():
                name = Path(f"/proc/{child}/cmdline").read_bytes().split(b"\0")[0]
                if name not in (b"", b"strace"):
                    return int(child)
        return None

    def has_ended(self):
        return self.process is None or self.process.poll() is not None

    def kill(self):
        """SIGKILL to the member; strace then ends by itself."""
        if self.has_ended():
            return
        with contextlib.suppress(ProcessLookupError):
            if own := self.process_id():
                os.kill(own, signal.SIGKILL)
        try:
            self.process.wait(PATIENCE)
        except subprocess.TimeoutExpired:
            self.process.kill()
            self.process.wait()

    def stop(self):
        with contextlib.suppress(OSError, subprocess.TimeoutExpired):
            self.ask("stop")
            self.process.wait(PATIENCE)
        self.kill()

    def said(self):
        return self.log.read_text(errors="replace").strip()

    def content(self):
        return self.file.read_bytes() if self.file.exists() else None

    def put(self, content):
        """Makes this its state file; none is no file."""
        self.file.unlink(missing_ok=True)
        if content is not None:
            self.file.write_bytes(content)

    # Talk.

    def number(self):
        """Its number by `status`; none where it has ended."""
        end = time.monotonic() + PATIENCE
        while time.monotonic() < end and not self.has_ended():
            try:
                words = self.ask("status").split()
            except OSError:
                words = []
            if words[:1] == ["ok"]:
                return int(words[3])
            time.sleep(0.005)
        if not self.has_ended():
            raise Wrong(f"no answer in {PATIENCE} seconds: {self.said()}")
        return None

    def answer_round(self, first, do, rest):
        """What a control connection is answered that says `first`, and the rest once `do` is done. It has a second in all; where
        this machine took longer, another one is tried."""
        end = time.monotonic() + PATIENCE
        while time.monotonic() < end:
            with self.connect() as stream:
                began = time.monotonic()
                try:
                    stream.sendall(first)
                    do()
                    stream.sendall(rest)
                    answer = stream.recv(100)
                except OSError as error:
                    answer = str(error).encode()
            if time.monotonic() - began < CONTROL_SECONDS:
                return answer
        raise Wrong(f"in {PATIENCE} seconds no connection was done within its second")

    def open_answer(self):
        """What an opening of its file says: the first number, or the name of the refusal."""
        self.run()
        try:
            number = self.number()
        finally:
            self.kill()
        if number is not None:
            return number
        return self.said().splitlines()[0].split()[-1]  # a hint may follow

    def acks(self, updates=(), seconds=0.4):
        """Whether it acks a ping with these updates. Notes the greatest own number in what comes."""
        self.sequence += 1
        self.send_ping(self.sequence, updates)
        end = time.monotonic() + seconds
        while (left := end - time.monotonic()) > 0:
            for peer in select.select(self.peers, [], [], left)[0]:
                data = peer.recv(2048)
                self.hear(max(own_numbers(data, self.six), default=0))
                if is_kind(data, ACK) and sequence_of(data) == self.sequence:
                    return True
        return False

    def send_ping(self, sequence, updates=()):
        """A ping of the first peer, which tells these updates, each a kind, an endpoint and a number."""
        sender = self.peers[0]
        sender.sendto(encode(Datagram(PING, sequence, sender.getsockname(), self.me, updates)), self.me)

    def hear(self, number):
        self.heard = max(self.heard, number)

    def answers(self):
        """Waits until it acks a ping; false where it ends before, or does not."""
        end = time.monotonic() + PATIENCE
        while time.monotonic() < end and not self.has_ended():
            if self.acks(seconds=0.1):
                return True
        return False

    def suspect(self, rounds, draw):
        """Suspects it again and again, so that it saves numbers, and lets it know of others; says whether it goes on."""
        going = self.answers()
        for _ in range(rounds if going else 0):
            ahead = draw.choice((0, 0, 0, 0, draw.randint(1, 9)))
            updates = [(SUSPECT, self.me, max(self.heard, 1) + ahead)]
            if draw.random() < 0.4:
                updates.append((ALIVE, draw.choice(self.peers).getsockname(), draw.randint(1, 5)))
            self.acks(draw.sample(updates, len(updates)))
        return going and not self.has_ended()
