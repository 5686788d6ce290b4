"""Connections of tests/fuzz_connections: what is sent over each, in which pieces, and what must come back."""
import bisect
import select
import socket
import struct
import time

from fuzz_rules import Wrong, check_refusal, judged, read_answer

PATIENCE = 90
# Linux chooses the port at the connect then, also one whose last connection ended just now.
BIND_ADDRESS_NO_PORT = 24


class Line:
    """A connection: the pieces that are sent, and what must come back.

    `wants` are tests of single answers, beside the rules. `end` says what comes after the last piece: `half` shuts the sending side, `open`
    leaves it open, `reset`, `close` and `deaf` leave without reading. The last `waits` pieces are sent one by one, each once all before it
    are answered.
    """

    def __init__(self, pieces, wants=(), end="half", waits=0, pause=0.0):
        self.pieces, self.wants, self.end, self.waits, self.pause = list(pieces), wants, end, waits, pause
        self.data = b"".join(self.pieces)
        self.requests, self.ending = judged(self.data)
        self.answers, self.held, self.sent, self.part, self.next_at = 0, bytearray(), 0, 0, 0.0
        self.ends, total = [], 0
        for it in self.requests:
            total += it.size
            self.ends.append(total)
        self.done = self.shut = self.broken = False
        self.lost, self.missing = [], 0
        self.socket = None
        if sum(it is not None for it in wants) > len(self.requests):
            raise ValueError("the script reads its own requests otherwise")
        self.is_refused = isinstance(self.ending, tuple) or self.ending == "cut" and end == "half"
        self.wanted = len(self.requests) + self.is_refused

    def open(self, peer, port):
        self.socket = socket.socket()
        self.socket.setsockopt(socket.IPPROTO_IP, BIND_ADDRESS_NO_PORT, 1)
        self.socket.bind(("127.0.0.%d" % (10 + peer), 0))
        self.socket.connect(("127.0.0.1", port))
        self.socket.setsockopt(socket.IPPROTO_TCP, socket.TCP_NODELAY, 1)
        self.socket.setblocking(False)

    def may_send(self, now):
        if self.shut or self.broken or now < self.next_at:
            return False
        return len(self.pieces) > self.waits or self.part > 0 or self.answers >= bisect.bisect_right(self.ends, self.sent)

    def send(self, now):
        """Sends of the next piece what goes, and ends the sending side after the last one."""
        if self.pieces:
            try:
                self.part += self.socket.send(self.pieces[0][self.part:self.part + 65_536])
            except BlockingIOError:
                return
            except (BrokenPipeError, ConnectionResetError):
                self.broken = True
                return
            if self.part == len(self.pieces[0]):
                self.sent += len(self.pieces.pop(0))
                self.part, self.next_at = 0, now + self.pause
        if not self.pieces:
            self.shut = True
            self.after_sending()

    def after_sending(self):
        if self.end == "half":
            try:
                self.socket.shutdown(socket.SHUT_WR)
            except OSError:
                pass
        elif self.end == "open":
            self.leave_open()
        else:
            if self.end == "deaf":
                time.sleep(0.2)
            self.close(self.end != "close")

    def receive(self, take):
        try:
            data = self.socket.recv(1 << 18)
        except BlockingIOError:
            return
        except ConnectionResetError:
            self.finish("reset")
            return
        if not data:
            self.finish("closed")
            return
        self.held += data
        while self.held and (found := read_answer(self.held)):
            answer, length = found
            del self.held[:length]
            self.take(answer, take)
        self.leave_open()

    def leave_open(self):
        """Leaves a connection that the service keeps open, once all answers came."""
        if self.end == "open" and self.shut and self.answers == self.wanted and self.ending in ("clean", "cut"):
            self.close(self.ending == "cut")

    def take(self, answer, take):
        """The next answer."""
        at = self.answers
        self.answers += 1
        if at < len(self.requests):
            if self.ends[at] > self.sent + self.part:
                raise Wrong("an answer before its request: %r" % answer)
            take(self.requests[at], answer, self.wants[at] if at < len(self.wants) else None)
        elif at < self.wanted:
            check_refusal(answer, self.ending if isinstance(self.ending, tuple) else {40})
        else:
            raise Wrong("one answer more: %r" % answer)

    def finish(self, how):
        """The service has closed the connection."""
        if self.held:
            raise Wrong("an answer is cut: %r" % bytes(self.held[:300]))
        if self.answers < self.wanted:
            if not (how == "reset" or self.broken) or self.ending in ("clean", "cut"):
                raise Wrong("%s after %d of %d answers" % (how, self.answers, self.wanted))
            self.lost, self.missing = self.requests[self.answers:], self.wanted - self.answers
        if self.end == "open" and self.ending in ("clean", "cut"):
            raise Wrong("%s without a cause" % how)
        self.close(False)

    def close(self, reset):
        if self.done or self.socket is None:
            return
        if reset:
            self.socket.setsockopt(socket.SOL_SOCKET, socket.SO_LINGER, struct.pack("ii", 1, 0))
        self.socket.close()
        self.done = True

    def is_read(self):
        return self.end in ("half", "open")


def carry(lines, take):
    """Sends and reads over all these connections at once, until each is done."""
    last = time.monotonic()
    while waiting := [it for it in lines if not it.done]:
        poll, now = select.poll(), time.monotonic()
        by_number = {it.socket.fileno(): it for it in waiting}
        pausing = [it.next_at for it in waiting if not it.shut and it.next_at > now]
        for number, it in by_number.items():
            poll.register(number, (select.POLLIN if it.is_read() else 0) | (select.POLLOUT if it.may_send(now) else 0))
        events = poll.poll(1_000 * (min(pausing) - now) + 1 if pausing else 1_000)
        for number, event in events:
            it = by_number[number]
            if event & (select.POLLIN | select.POLLHUP | select.POLLERR) and it.is_read():
                it.receive(take)
            if event & (select.POLLOUT | select.POLLHUP | select.POLLERR) and not it.done and it.may_send(now):
                it.send(now)
            elif event & (select.POLLHUP | select.POLLERR) and not it.is_read():
                it.close(True)
        last = now if events else last
        if now - last > PATIENCE:
            raise Wrong("no answer within %d seconds" % PATIENCE)
