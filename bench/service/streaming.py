"""What the scripts of this folder share that play connections: SIP over TCP, message by message, and one who asks meanwhile whether others are served."""
import resource
import socket
import struct
import threading
import time

import common
from common import lines

# so soon is another one answered, whatever is done to the proxy
WORST = 0.050


def many_files():
    """Lets this process and those that it starts have as many files open as the system gives."""
    most = resource.getrlimit(resource.RLIMIT_NOFILE)[1]
    resource.setrlimit(resource.RLIMIT_NOFILE, (most, most))
    return most


def own_text(*more):
    return "\n".join([f"own {common.PROXY[0]} {common.PROXY[1]}", f"instance {int(time.time()) % 2**31}", "domain example.com", "trust 127.0.0.0/8", *more]) + "\n"


def request(method, uri, call, port, host="127.0.0.1", body="", more=()):
    """A request over TCP, of this Call-ID; its branch is of the same text."""
    text = [f"{method} {uri} SIP/2.0", f"Via: SIP/2.0/TCP {host}:{port};branch=z9hG4bK-{call}", "Max-Forwards: 70", f"From: <sip:caller@example.com>;tag=c{call}",
            f"To: <{uri}>", f"Call-ID: {call}", f"CSeq: 1 {method}", f"Contact: <sip:caller@{host}:{port};transport=tcp>", *more, f"Content-Length: {len(body)}", "", body]
    return "\r\n".join(text).encode()


def call_of(text):
    return lines(text, "Call-ID")[0].split(" ")[1]


class Ended(Exception):
    """The other end has closed the connection."""


class Stream:
    """A connection, and what has come by it and is no whole message yet."""

    def __init__(self, way=None, host="127.0.0.1", to=common.PROXY, room=None):
        if way is None:
            way = socket.socket()
            if room:
                way.setsockopt(socket.SOL_SOCKET, socket.SO_RCVBUF, room)
            way.bind((host, 0))
            way.settimeout(10)
            way.connect(to)
        way.setsockopt(socket.IPPROTO_TCP, socket.TCP_NODELAY, 1)
        self.way, self.come = way, b""
        self.host, self.port = way.getsockname()

    def send(self, data):
        self.way.sendall(data)

    def more(self, seconds):
        """Reads once, within so many seconds; nothing where that passes."""
        self.way.settimeout(max(0.001, seconds))
        try:
            data = self.way.recv(65536)
        except socket.timeout:
            return False
        except OSError as error:
            raise Ended from error
        if not data:
            raise Ended
        self.come += data
        return True

    def message(self, seconds):
        """The next message; none after so many seconds."""
        until = time.monotonic() + seconds
        while True:
            self.come = self.come.lstrip(b"\r\n")
            head, found, rest = self.come.partition(b"\r\n\r\n")
            if found:
                text = head.decode("latin-1")
                length = int(lines(text, "Content-Length")[0].split(":")[1])
                if len(rest) >= length:
                    self.come = rest[length:]
                    return text + "\r\n\r\n" + rest[:length].decode("latin-1")
            if not self.more(until - time.monotonic()):
                return None

    def final(self, seconds, call=None):
        """The next final answer, of this call; none after so many seconds."""
        until = time.monotonic() + seconds
        while text := self.message(until - time.monotonic()):
            if text.startswith("SIP/2.0 ") and text[8] != "1" and call in (None, call_of(text)):
                return text
        return None

    def ended(self, seconds):
        """After how many seconds the other end closes; none where it does not."""
        began = time.monotonic()
        try:
            while time.monotonic() < began + seconds:
                self.more(began + seconds - time.monotonic())
        except Ended:
            return time.monotonic() - began
        return None

    def reset(self):
        """Ends the connection without what was sent by it."""
        self.way.setsockopt(socket.SOL_SOCKET, socket.SO_LINGER, struct.pack("ii", 1, 0))
        self.way.close()

    def close(self):
        self.way.close()


class Asking:
    """One who asks by a connection of his own, fifty times a second, and notes how long the answers take."""

    def __init__(self, host="127.0.0.9"):
        self.stream, self.took, self.missed, self.is_over = Stream(host=host), [], 0, False
        self.thread = threading.Thread(target=self.asks, daemon=True)
        self.thread.start()

    def asks(self):
        number = 0
        while not self.is_over:
            number += 1
            began = time.monotonic()
            call = f"asking-{id(self)}-{number}"
            self.stream.send(request("OPTIONS", f"sip:{common.PROXY[0]}:{common.PROXY[1]}", call, self.stream.port, self.stream.host))
            self.missed += self.stream.final(5, call) is None
            self.took.append(time.monotonic() - began)
            time.sleep(max(0, 0.02 - self.took[-1]))

    def end(self, what):
        """Says whether each of his requests was answered in time."""
        self.is_over = True
        self.thread.join()
        self.stream.close()
        worst = max(self.took)
        common.holds(not self.missed and worst <= WORST, f"{what}: of {len(self.took)} requests beside {self.missed} got no answer, the slowest {worst * 1000:.1f} ms (50 at most)")
