"""Clients of a running hall, many at once: what each is sent, and when it is cut."""
import asyncio
import contextlib
import resource
import socket
import struct
import time

from .checks import check
from .wire import REPLY

# After how many seconds a client is cut, and how long what still comes is read off after the last reply.
PATIENCE, LAST = 10, 2
# How much sooner than that is well, and how much later by a client's clock.
EARLY, LATE = 0.2, 2.0
# The most connections that a hall has open.
MOST = 500


def allow_many_files():
    """A client is an open file, and a process may usually have 1,024."""
    _, hard = resource.getrlimit(resource.RLIMIT_NOFILE)
    resource.setrlimit(resource.RLIMIT_NOFILE, (min(4096, hard), hard))


def scheduled(pid):
    """The seconds for which a process had a processor, and those for which it waited for one."""
    with open(f"/proc/{pid}/schedstat", encoding="ascii") as file:
        return [int(it) / 1e9 for it in file.read().split()[:2]]


def clock_beside(pid):
    """A clock that stands still while this process, or that one, waits for a processor: on a machine that nobody else
    uses it is as any other, and on a busy one it tells what it would have told there."""
    return lambda: time.monotonic() - scheduled(pid)[1] - scheduled("thread-self")[1]


class Client:
    """A connection, and the time since it was made, or since what was sent last: of the world, and by its clock."""

    def __init__(self, port, room=None, clock=time.monotonic):
        self.port, self.room, self.clock, self.read = port, room, clock, bytearray()

    async def __aenter__(self):
        it = socket.socket()
        it.setsockopt(socket.IPPROTO_TCP, socket.TCP_NODELAY, 1)
        if self.room:
            it.setsockopt(socket.SOL_SOCKET, socket.SO_RCVBUF, self.room)
        it.setblocking(False)
        self.it = it
        self.begin()
        await asyncio.get_running_loop().sock_connect(it, ("127.0.0.1", self.port))
        return self

    async def __aexit__(self, *_):
        self.it.close()

    def reset(self):
        """Breaks the connection off, whatever is under way."""
        self.it.setsockopt(socket.SOL_SOCKET, socket.SO_LINGER, struct.pack("ii", 1, 0))
        self.it.close()

    def begin(self):
        """Time is told from now on."""
        self.since, self.begun = time.monotonic(), self.clock()

    async def send(self, sent):
        self.begin()
        await self.send_on(sent)

    async def send_on(self, sent):
        """Sends more of what was begun before."""
        await asyncio.get_running_loop().sock_sendall(self.it, sent)

    async def more(self, size=1 << 16):
        """Whether something came; a connection may also be cut by a reset."""
        try:
            piece = await asyncio.get_running_loop().sock_recv(self.it, size)
        except (ConnectionResetError, BrokenPipeError):
            piece = b""
        self.read += piece
        return piece != b""

    async def reply(self):
        """One whole reply; what came of it, where the connection ends before."""
        while not (head := REPLY.match(self.read)) or len(self.read) < head.end() + int(head[1]):
            if not await self.more():
                break
        size = head.end() + int(head[1]) if head else len(self.read)
        one, self.read = bytes(self.read[:size]), self.read[size:]
        return one

    async def rest(self):
        while await self.more():
            pass
        return bytes(self.read)

    def is_gone(self):
        """Whether the hall has closed it, where nothing of it was left unread."""
        try:
            return self.it.recv(1, socket.MSG_PEEK | socket.MSG_DONTWAIT) == b""
        except BlockingIOError:
            return False
        except ConnectionError:
            return True

    def took(self):
        return time.monotonic() - self.since

    def waited(self):
        """How long it took by its clock."""
        return self.clock() - self.begun

    def was_cut(self, name, seconds, early=EARLY):
        took, waited = self.took(), self.waited()
        is_well = seconds - early <= took and waited <= seconds + LATE
        check(f"{name} is cut after {took:.2f} seconds ({waited:.2f} by its clock), and not {seconds}", is_well, True)


@contextlib.asynccontextmanager
async def many(port, count):
    """So many clients, each connected."""
    async with contextlib.AsyncExitStack() as stack:
        yield [await stack.enter_async_context(Client(port)) for _ in range(count)]


def status(reply):
    """A whole reply's status; 0 where it isn't whole."""
    head = REPLY.match(reply)
    return int(head[0][9:12]) if head and len(reply) == head.end() + int(head[1]) else 0


def body(reply):
    """A reply's body, or what is there of it."""
    return reply.partition(b"\r\n\r\n")[2]
