#!/usr/bin/env python3
"""usage: echo.py SERVER CLIENT..

Runs the program of examples/echo.c with each of the clients, programs of examples/echo_threads.c, and with clients that
are slow, wrong or gone. Prints what differs from what is due, and ends with status 1 then."""
import atexit
import errno
import re
import resource
import signal
import socket
import struct
import subprocess
import sys
import threading
import time
from concurrent.futures import ThreadPoolExecutor

# In milliseconds: of the servers that cut clients off, and of the one that does not. On a busy machine a program may
# stand still for seconds.
PATIENCE, LONG = 10_000, 60_000
CLIENTS = 64
RING = 65536
DATA = 1


def send(body):
    """A Send of version One on Data."""
    return bytes([0x10 | DATA]) + struct.pack(">H", len(body)) + body


def issue(amount):
    return bytes([0x20 | DATA]) + struct.pack(">I", amount)


def limits_of_zero():
    """The ends of all channels in version One."""
    return b"".join(bytes([0x50 | it]) + struct.pack(">Q", 0) for it in range(7))


class Server:
    """The server, and the lines that it prints."""

    def __init__(self, program, patience, descriptors=None):
        def limit():
            resource.setrlimit(resource.RLIMIT_NOFILE, (descriptors, descriptors))

        given = {"preexec_fn": limit} if descriptors else {}
        self.process = subprocess.Popen([program, "0", str(patience)], stdout=subprocess.PIPE, stderr=subprocess.PIPE, text=True, **given)
        atexit.register(self.end)  # where something differs, it would stay
        self.port = int(re.fullmatch(r"listening on 127\.0\.0\.1:(\d+)\n", self.process.stdout.readline())[1])

    def end(self):
        self.process.kill()
        self.process.wait()

    def line(self):
        return self.process.stdout.readline().rstrip("\n")

    def connect(self, received=None):
        it = socket.socket()
        it.settimeout(20)
        if received:
            it.setsockopt(socket.SOL_SOCKET, socket.SO_RCVBUF, received)
        it.connect(("127.0.0.1", self.port))
        return it

    def greeted(self, received=None):
        """A client that has the guarantees of the ring, behind the preface of version Two."""
        it = self.connect(received)
        due("the preface and the ring", read(it, 9), b"LCM\x02" + issue(RING))
        return it

    def stop(self):
        """Ends it by a signal: its status, the lines that are left, and what it complained of."""
        self.process.send_signal(signal.SIGTERM)
        out, err = self.process.communicate(timeout=20)
        return self.process.returncode, out.splitlines(), err


def due(what, got, wanted):
    if got != wanted:
        sys.exit(f"{what}: got {got!r}, and not {wanted!r}")


def read_all(it):
    """What arrives until the server ends its stream or resets it."""
    all_of_it = b""
    try:
        while piece := it.recv(RING):
            all_of_it += piece
    except ConnectionResetError:
        pass
    return all_of_it


def send_last(it, stream):
    """Sends these bytes and the end. The server may find a fault in them, and reset the stream, before that."""
    try:
        it.sendall(stream)
        it.shutdown(socket.SHUT_WR)
    except OSError as error:
        if error.errno not in (errno.EPIPE, errno.ECONNRESET, errno.ENOTCONN):
            raise


def read(it, length):
    """So many bytes, or those that arrive before the stream ends."""
    got = b""
    while len(got) < length and (piece := it.recv(length - len(got))):
        got += piece
    return got


def is_quiet(it):
    """Whether nothing arrives for a while."""
    it.settimeout(0.2)
    try:
        return it.recv(1) is None
    except TimeoutError:
        return True
    finally:
        it.settimeout(20)


def many_clients(server, client):
    """Clients of several lengths at once, while one client sends nothing and one reads nothing."""
    jobs = [(2000, 1), (500, 100), (300, 60_000), (40, RING), (0, 1), (1, 1), (1000, 700), (700, 1000)]
    words = [[client, str(server.port), str(count), str(length), "20000"] for count, length in jobs]
    running = [subprocess.Popen(it, stdout=subprocess.PIPE, stderr=subprocess.STDOUT, text=True) for it in words]
    for (count, _), it in zip(jobs, running):
        due("a client", (it.communicate(timeout=120)[0], it.returncode), (f"{count} messages came back\n", 0))
    lines = sorted(server.line() for _ in jobs)
    due("the server", lines, sorted(f"echoed {n} messages, {n * length} bytes: closed" for n, length in jobs))


def messages_by_hand(server):
    """An echo byte by byte. The server ends its direction before the client does."""
    it = server.greeted()
    for byte in issue(5) + send(b"hel") + send(b"lo") + limits_of_zero():
        it.send(bytes([byte]))
    got = read_all(it)
    it.close()
    due("the messages", (got.count(b"\x11\0\0\0\x03hel"), got.count(b"\x11\0\0\0\x02lo")), (1, 1))
    due("the ends", got[-7:], bytes(0x70 | channel for channel in range(7)))
    due("the end", server.line(), "echoed 2 messages, 5 bytes: closed")


def without_guarantees(server):
    """The server sends nothing that the client issued no guarantees for, and takes no more than its ring."""
    it = server.greeted()
    it.sendall(issue(4) + send(b"four") + send(b"five!"))
    due("before its guarantees", read(it, 14), b"\x11\0\0\0\x04four" + issue(4))
    due("and no more", is_quiet(it), True)
    it.sendall(issue(5) + limits_of_zero())
    it.shutdown(socket.SHUT_WR)
    due("after them", b"\x11\0\0\0\x05five!" in read_all(it), True)
    due("the end", server.line(), "echoed 2 messages, 9 bytes: closed")


def silent(server):
    began = time.monotonic()
    it = server.connect()
    read_all(it)
    took = (time.monotonic() - began) * 1000
    due("a silent client", server.line(), "echoed 0 messages, 0 bytes: too slow")
    due("the time", PATIENCE * 0.9 < took < LONG / 2, True)


def slow(server):
    """A client that moves a byte now and then is served for as long as it does."""
    it = server.greeted()
    began = time.monotonic()
    for byte in issue(5) + send(b"slow"):
        time.sleep(PATIENCE / 1000 / 5)
        it.send(bytes([byte]))
    due("the time", (time.monotonic() - began) * 1000 > PATIENCE * 2, True)
    it.sendall(limits_of_zero())
    it.shutdown(socket.SHUT_WR)
    read_all(it)
    due("a slow client", server.line(), "echoed 1 messages, 4 bytes: closed")


def slow_reader(server):
    """A client that sends nothing more and reads now and then is served for as long as it does."""
    it = server.greeted(received=4096)
    it.sendall(issue(RING) + send(b"x") * RING + limits_of_zero())
    it.shutdown(socket.SHUT_WR)
    began, got = time.monotonic(), 0
    while piece := read(it, 32768):
        got += len(piece)
        time.sleep(PATIENCE / 1000 / 6)
    due("the time", (time.monotonic() - began) * 1000 > PATIENCE * 2, True)
    due("a slow reader", server.line(), f"echoed {RING} messages, {RING} bytes: closed")
    due("its bytes", got >= 6 * RING, True)


def stuck(server):
    """One that reads nothing holds up nobody, and is cut off: 65,536 messages of a byte are 393,216 bytes of frames."""
    it = server.greeted(received=4096)
    it.sendall(issue(RING))
    writing = threading.Thread(target=it.sendall, args=(send(b"x") * RING,))
    writing.start()
    time.sleep(0.2)
    messages_by_hand(server)
    line = server.line()
    due("a client that does not read", re.sub(r"\d+", "N", line), "echoed N messages, N bytes: too slow")
    due("not all was sent", int(re.search(r"\d+", line)[0]) < RING, True)
    writing.join()


def wrong(server):
    """What ends a session: bytes that are no frame, too long a message, half a frame, unfinished channels, a reset."""
    cases = {
        b"\xff": "a byte names no kind or channel, or is not the greeting's",
        send(b"x" * 40_000) + send(b"x" * 40_000): "a message longer than the guarantees outstanding",
        b"\x11\0": "the stream ends within a frame or a greeting",
        b"": "cut off by the client",
        issue(1) + send(b"x"): "cut off by the client",
    }
    for stream, failure in cases.items():
        it = server.greeted()
        send_last(it, stream)
        read_all(it)
        due("a wrong stream", server.line().partition(": ")[2], failure)
    it = server.greeted()
    it.sendall(issue(RING) + send(b"x" * 9) * 1000)
    it.setsockopt(socket.SOL_SOCKET, socket.SO_LINGER, struct.pack("ii", 1, 0))
    it.close()
    due("a reset", server.line().partition(": ")[2] in ("Connection reset by peer", "Broken pipe"), True)


def gone(server):
    """A client that has ended its direction and closes before it has read all: to write to it is an EPIPE."""
    it = server.greeted(received=4096)
    it.sendall(issue(RING) + send(b"x") * RING + limits_of_zero())
    it.shutdown(socket.SHUT_WR)
    time.sleep(1)  # the server has read all, and waits until it can write
    it.close()
    due("a client that is gone", server.line().partition(": ")[2] in ("Broken pipe", "Connection reset by peer"), True)


def full(server):
    """One client more than there are places waits until another one leaves."""
    all_of_them = [server.greeted() for _ in range(CLIENTS)]
    more = server.connect()
    due("a client without a place", is_quiet(more), True)
    all_of_them.pop().close()
    due("the place that is free", (more.recv(4), server.line()), (b"LCM\x02", "echoed 0 messages, 0 bytes: cut off by the client"))
    return [*all_of_them, more]


def short_of_descriptors(program):
    """A client for which the server has no descriptor waits until another one leaves, and the server sleeps meanwhile."""
    # poll takes no more places than there are descriptors: those of the clients and that of the listener.
    server, before = Server(program, LONG, descriptors=CLIENTS + 1), time_of_children()
    clients = [server.greeted() for _ in range(CLIENTS + 1 - 4)]
    more = server.connect()
    time.sleep(3)
    due("a client without a descriptor", is_quiet(more), True)
    clients.pop().close()
    due("the descriptor that is free", (more.recv(4), server.line()), (b"LCM\x02", "echoed 0 messages, 0 bytes: cut off by the client"))
    ended(server, ["echoed 0 messages, 0 bytes: stopped"] * (len(clients) + 1))
    due("the server slept while it rested", time_of_children() - before < 1, True)
    for it in (*clients, more):
        it.close()


def listen():
    """A listener that waits so long for a client, and its port."""
    listener = socket.create_server(("127.0.0.1", 0))
    listener.settimeout(60)
    return listener, str(listener.getsockname()[1])


def alone(client):
    """A client whose server sends nothing, cuts it, or sends another message. It waits long for what is sent."""
    listener, port = listen()
    answers = {
        b"": "the server sends too slowly",
        b"LCM\x02" + issue(RING) + b"\x71": "the server finished the channel too early",
        issue(RING) + send(b"\0\1\3"): "another message came back",
        b"\x11": None,
    }
    for answer, failure in answers.items():
        words = [client, port, "5", "3", "20000" if answer else "500"]
        running = subprocess.Popen(words, stdout=subprocess.PIPE, stderr=subprocess.STDOUT, text=True)
        it, _ = listener.accept()
        it.recv(9)
        it.sendall(answer)
        if failure is None:
            it.shutdown(socket.SHUT_WR)
        said, status = running.communicate(timeout=30)[0], running.returncode
        due("a client alone", (said, status), (f"{failure or 'the server has cut the session off'}\n", 1))
        it.close()


def time_of_children():
    """The processor time of the programs that have ended, in seconds."""
    used = resource.getrusage(resource.RUSAGE_CHILDREN)
    return used.ru_utime + used.ru_stime


def ended(server, lines):
    status, left, complaint = server.stop()
    due("what is left", (status, left, complaint), (0, lines, ""))


def half_closed(client):
    """A client finishes all its channels and ends its direction before the server ends its own."""
    listener, port = listen()
    running = subprocess.Popen([client, port, "1", "3", "20000"], stdout=subprocess.PIPE, stderr=subprocess.STDOUT, text=True)
    it, _ = listener.accept()
    it.settimeout(20)
    it.sendall(issue(RING))
    due("its preface and its ring", read(it, 9), b"LCM\x02" + issue(RING))
    due("its message and the end of its channel", read(it, 9), b"\x11\0\0\0\3\0\1\2" + b"\x71")
    it.sendall(send(b"\0\1\2") + limits_of_zero())
    due("the ends of the others", read_all(it).replace(issue(3), b""), bytes(0x70 | channel for channel in range(7) if channel != DATA))
    it.close()
    due("its result", (running.communicate(timeout=30)[0], running.returncode), ("1 messages came back\n", 0))


def too_patient(program):
    """A server whose times would pass the greatest number does not start."""
    words = [program, "0", str(2**63 - 1)]
    ran = subprocess.run(words, stdout=subprocess.PIPE, stderr=subprocess.STDOUT, text=True, timeout=20, check=False)
    due("a patience beyond all times", (ran.returncode, ran.stdout), (2, "usage: echo PORT PATIENCE\n"))


def main(program, clients):
    too_patient(program)
    server = Server(program, LONG)
    for client in clients:
        many_clients(server, client)
        alone(client)
        half_closed(client)
    for case in (messages_by_hand, without_guarantees, wrong, gone):
        case(server)
    left = full(server)
    ended(server, ["echoed 0 messages, 0 bytes: stopped"] * CLIENTS)
    for it in left:
        it.close()
    short_of_descriptors(program)
    cases, before = (silent, slow, slow_reader, stuck), time_of_children()
    servers = [Server(program, PATIENCE) for _ in cases]
    with ThreadPoolExecutor(len(cases)) as pool:
        for done in [pool.submit(case, server) for case, server in zip(cases, servers)]:
            done.result()
    for server in servers:
        ended(server, [])
    # They waited some 65 seconds.
    due("the servers slept while they waited", time_of_children() - before < 4, True)


if __name__ == "__main__":
    if len(sys.argv) < 3:
        sys.exit(__doc__.partition("\n")[0])
    main(sys.argv[1], sys.argv[2:])
