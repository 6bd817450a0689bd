"""Two networks that a script makes and rules. In both it carries each datagram itself, so that it sees all, and loses what
the weather loses. No datagram leaves the machine, and nothing is left when the process has ended, however it ends."""

import ctypes
import fcntl
import heapq
import itertools
import os
import selectors
import socket
import struct
import threading
import time
from contextlib import contextmanager, nullcontext
from typing import Callable, NamedTuple

from lib.datagrams import Endpoint, six_bytes
from lib.members import free_endpoint
from lib.processes import run_to_its_end
from lib.trials import Wrong, expect

ROOM = 2048  # bytes of a packet that is read


class Home(NamedTuple):
    """Where a member lives."""

    me: Endpoint  # which it has in its settings
    public: Endpoint  # by which the others know it
    control: Endpoint
    entered: Callable  # a context in which the calling thread makes sockets and processes there


class Weather:
    """What the network does to datagrams, drawn by a seed."""

    REPEATED = 0.02  # of the datagrams come twice
    LATE = 0.02  # of them come up to so many ticks late, and the others up to half a tick
    LATE_TICKS = 20

    def __init__(self, draw, loss, tick):
        self.draw, self.loss, self.tick = draw, loss, tick
        self.is_clear = False
        self.side = set()  # the places that are cut off from all the others
        self.deaf, self.mute = set(), set()  # those that hear nobody, and those that nobody hears
        self.counts = dict.fromkeys(("lost", "cut", "repeated", "late"), 0)

    def waits(self, source, to):
        """After how many seconds each copy of a datagram arrives."""
        if (source in self.side) != (to in self.side) or source in self.mute or to in self.deaf:
            self.counts["cut"] += 1
            return []
        if self.happens("lost", self.loss / 100):
            return []
        return [self.wait() for _ in range(1 + self.happens("repeated", self.REPEATED))]

    def wait(self):
        return self.draw.uniform(0, self.tick * (self.LATE_TICKS if self.happens("late", self.LATE) else 0.5))

    def happens(self, what, chance):
        happens = not self.is_clear and self.draw.random() < chance
        self.counts[what] += happens
        return happens


class Network:
    """Carries datagrams between homes. `see` is told of each one as it leaves its home: the place and the bytes."""

    about = ""

    def __init__(self, count, weather, see):
        self.weather, self.see = weather, see
        self.homes, self.handles, self.places = [], [], {}
        self.under_way, self.turns = [], itertools.count()
        self.lag = 0.0  # the most seconds by which a datagram was delivered later than it was due
        self.lock, self.over, self.failure = threading.Lock(), threading.Event(), None
        self.thread = threading.Thread(target=self.run, daemon=True)
        try:
            for place in range(count):
                home = self.make_home(place)
                self.homes.append(home)
                self.places |= {home.me: place, home.public: place}
        except BaseException:
            self.close()
            raise
        self.thread.start()

    def run(self):
        try:
            with selectors.DefaultSelector() as selector:
                for handle in self.handles:
                    selector.register(handle, selectors.EVENT_READ)
                while not self.over.is_set():
                    for key, _ in selector.select(self.pause()):
                        self.take(key.fileobj)
                    self.deliver_due()
        except Exception as failure:  # the main thread tells it
            self.failure = failure

    def pause(self):
        """Seconds until a datagram is to be delivered, and a tenth at most."""
        return min(max(self.under_way[0][0] - time.monotonic(), 0), 0.1) if self.under_way else 0.1

    def take(self, handle):
        """Takes all that waits there, and lets the weather say what becomes of it."""
        with self.lock:
            while found := self.receive(handle):
                source, to, data, packet = found
                self.see(source, data)
                for wait in self.weather.waits(source, to):
                    heapq.heappush(self.under_way, (time.monotonic() + wait, next(self.turns), source, to, packet))

    def take_all(self):
        """Takes all that has left the homes until now."""
        for handle in self.handles:
            self.take(handle)

    def deliver_due(self):
        while self.under_way and self.under_way[0][0] <= time.monotonic():
            with self.lock:
                due, _, source, to, packet = heapq.heappop(self.under_way)
            self.lag = max(self.lag, time.monotonic() - due)
            self.deliver(source, to, packet)

    def close(self):
        self.over.set()
        if self.thread.ident:
            self.thread.join()
        self.end()

    def as_seen(self, place, data):
        """The bytes that a member at this place sent, as `see` is told of them."""
        return data

    def make_home(self, place):
        raise NotImplementedError

    def receive(self, handle):
        """The next datagram there: from which place, to which, its bytes, and what is to be delivered."""
        raise NotImplementedError

    def deliver(self, source, to, packet):
        raise NotImplementedError

    def end(self):
        raise NotImplementedError


class Namespaces(Network):
    """A network namespace for each member. Its one device beside its loopback is a tunnel, whose other end is here. The
    namespaces have no names, so they end with the last process in them."""

    about = "each member in a network namespace of its own"
    NEW_NETWORK = 0x40000000  # CLONE_NEWNET
    SET_DEVICE = 0x400454CA  # TUNSETIFF
    PACKETS_ALONE = 0x1001  # IFF_TUN | IFF_NO_PI
    HERE = "/proc/thread-self/ns/net"

    def __init__(self, *words):
        self.libc = ctypes.CDLL(None, use_errno=True)
        self.here = os.open(self.HERE, os.O_RDONLY)
        self.spaces = []
        super().__init__(*words)

    def make_home(self, place):
        me = Endpoint(f"10.77.{place // 250}.{place % 250 + 1}", 7000)
        self.must(self.libc.unshare(self.NEW_NETWORK))
        try:
            space = os.open(self.HERE, os.O_RDONLY)
            self.spaces.append(space)
            device = os.open("/dev/net/tun", os.O_RDWR | os.O_NONBLOCK | os.O_CLOEXEC)
            self.handles.append(device)
            fcntl.ioctl(device, self.SET_DEVICE, struct.pack("16sH22x", b"swim", self.PACKETS_ALONE))
            lines = f"link set lo up\naddr add {me.host}/16 dev swim\nlink set swim up\n"
            ran = run_to_its_end(["ip", "-batch", "-"], input=lines.encode())
            expect((ran.status, ran.err), (0, ""), "ip")
        finally:
            self.enter(self.here)
        return Home(me, me, Endpoint("127.0.0.1", 7001), lambda: self.entered(space))

    @contextmanager
    def entered(self, space):
        """The calling thread makes its sockets and processes in this namespace."""
        self.enter(space)
        try:
            yield
        finally:
            self.enter(self.here)

    def enter(self, space):
        self.must(self.libc.setns(space, self.NEW_NETWORK))

    def must(self, result):
        if result:
            raise OSError(ctypes.get_errno(), os.strerror(ctypes.get_errno()))

    def receive(self, handle):
        while packet := self.read(handle):
            head = 4 * (packet[0] & 15)
            if packet[0] >> 4 == 4 and packet[9] == socket.IPPROTO_UDP:
                ports = struct.unpack(">HH", packet[head : head + 4])
                ends = zip((packet[12:16], packet[16:20]), ports)
                source, to = (self.places.get(Endpoint(socket.inet_ntoa(host), port)) for host, port in ends)
                if None not in (source, to):
                    return source, to, packet[head + 8 :], packet
        return None

    def read(self, handle):
        try:
            return os.read(handle, ROOM)
        except BlockingIOError:
            return None

    def deliver(self, source, to, packet):
        os.write(self.handles[to], packet)

    def end(self):
        for handle in [*self.handles, *self.spaces, self.here]:
            os.close(handle)


class Loopback(Network):
    """A loopback address for each member, with two ports: its own, and one of the proxy, by which the others know it. The
    proxy names a member in each datagram as its reader knows it. A member's two endpoints have the same place in order."""

    about = "members on loopback, behind a proxy"

    def __init__(self, *words):
        self.port = free_endpoint(socket.SOCK_DGRAM).port & ~1
        super().__init__(*words)

    def make_home(self, place):
        host = f"127.77.{place // 250}.{place % 250 + 1}"
        me, public = Endpoint(host, self.port), Endpoint(host, self.port + 1)
        door = socket.socket(socket.AF_INET, socket.SOCK_DGRAM)
        self.handles.append(door)
        door.bind(public)
        door.setblocking(False)
        return Home(me, public, free_endpoint(socket.SOCK_STREAM), nullcontext)

    def receive(self, handle):
        while True:
            try:
                data, sender = handle.recvfrom(ROOM)
            except BlockingIOError:
                return None
            source = self.places.get(Endpoint(*sender))
            if source is not None:
                data = self.as_seen(source, data)
                return source, self.handles.index(handle), data, data

    def as_seen(self, place, data):
        home = self.homes[place]
        return renamed(data, home.me, home.public)

    def deliver(self, source, to, packet):
        home = self.homes[to]
        self.handles[source].sendto(renamed(packet, home.public, home.me), home.me)

    def end(self):
        for handle in self.handles:
            handle.close()


def renamed(data, old, new):
    """A datagram with one endpoint in place of another, wherever it names it."""
    data = bytearray(data)
    for at in (20, 26, *range(34, len(data), 16)):
        if data[at : at + 6] == six_bytes(old):
            data[at : at + 6] = six_bytes(new)
    return bytes(data)


def make_network(on_loopback, trials, *words):
    """Namespaces where this process may make them, and else loopback."""
    if on_loopback:
        return Loopback(*words)
    try:
        return Namespaces(*words)
    except (OSError, Wrong) as refusal:
        trials.skip("members in network namespaces, so they are on loopback", str(refusal))
        return Loopback(*words)
