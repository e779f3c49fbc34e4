"""What the cases of `faults` are played with: callers and telephones, proxies that are to bear something, and what is done to them."""
import contextlib
import mmap
import os
import re
import select
import signal
import socket
import struct
import subprocess
import threading
import time

import common
from common import NotListening, Proxy, answer, holds, lines, opened

CALLER, TELEPHONE, SILENT, CLOSED, HELD = 5070, 5081, 5097, 5999, 5998
# a call to `gone` is refused by the system as it is sent, and is forgotten five seconds after the ACK; `silent` never answers
GONE = "location gone 1000 sip:gone@255.255.255.255:5099"
OTHERS = [GONE, f"location silent 1000 sip:silent@127.0.0.1:{SILENT}", f"location closed 1000 sip:closed@127.0.0.1:{CLOSED}",
          f"location held 1000 sip:held@127.0.0.1:{HELD}", f"location serial 1000 sip:closed@127.0.0.1:{CLOSED}", f"location serial 500 sip:one@127.0.0.1:{TELEPHONE}"]
FORGOTTEN = 5.0
# F_SETPIPE_SZ
PIPE_SIZE = 1031
# the words of the page that faults.c knows
PAGE = ["most", "held", "refused", "ahead", "least_size", "greatest_size", "port", "milliseconds", "size", "passed"]


class Skipped(Exception):
    """A case cannot be played here, and why."""


# ---- agents

class Agent:
    """A port of a caller's or of a telephone's."""

    made = 0

    def __init__(self, port, host="127.0.0.1", proxy=common.PROXY):
        self.way, self.port, self.host, self.proxy = opened(port, host), port, host, proxy

    def send(self, data):
        self.way.sendto(data, self.proxy)

    def ask(self, method, uri, call=None, to_tag="", more=(), branch=None):
        """Sends a request, and answers its Call-ID; its branch is of the same text where none is given, as that of the ACK of a failure is."""
        if call is None:
            Agent.made += 1
            call = f"{Agent.made}-{os.getpid()}"
        text = [f"{method} {uri} SIP/2.0", f"Via: SIP/2.0/UDP {self.host}:{self.port};branch=z9hG4bK-{branch or call}", *more, "Max-Forwards: 70",
                f"From: <sip:caller@example.com>;tag=c{call}", f"To: <{uri}>{to_tag}", f"Call-ID: {call}", f"CSeq: 1 {method}",
                f"Contact: <sip:caller@{self.host}:{self.port}>", "Content-Length: 0", "", ""]
        self.send("\r\n".join(text).encode())
        return call

    def come(self, seconds, starts="", call=None):
        """The next message that begins so, of this call; none after so many seconds."""
        until = time.monotonic() + seconds
        while select.select([self.way], [], [], max(0, until - time.monotonic()))[0]:
            text = self.way.recv(65536).decode("latin-1")
            if text.startswith(starts) and call in (None, call_of(text)):
                return text
        return None

    def final(self, call, seconds):
        """The final answer to a request of this call; a failure of an INVITE is acknowledged."""
        until = time.monotonic() + seconds
        while text := self.come(until - time.monotonic(), "SIP/2.0 ", call):
            status = int(text[8:11])
            if status < 200:
                continue
            if status >= 300 and lines(text, "CSeq")[0].endswith("INVITE"):
                uri = lines(text, "To")[0].split("<")[1].split(">")[0]
                self.ask("ACK", uri, call, ";tag=" + lines(text, "To")[0].split(";tag=")[1])
            return text
        return None

    def close(self):
        self.way.close()


def call_of(text):
    return lines(text, "Call-ID")[0].split(" ")[1]


class Answering:
    """A telephone, or a caller's ear, that answers by a thread of its own what comes."""

    def __init__(self, agent, reply):
        self.agent, self.reply, self.ended = agent, reply, False
        self.thread = threading.Thread(target=self.listen, daemon=True)
        self.thread.start()

    def listen(self):
        while not self.ended:
            text = self.agent.come(0.1)
            for data in self.reply(text) if text else ():
                self.agent.send(data)

    def end(self):
        self.ended = True
        self.thread.join()
        self.agent.close()


def well(text):
    """What a telephone answers that is at home to OPTIONS and busy for calls."""
    if text.startswith("OPTIONS"):
        yield answer(text, 200, "OK", "t")
    if text.startswith("INVITE"):
        yield answer(text, 486, "Busy Here", "t")


@contextlib.contextmanager
def agents(*made):
    try:
        yield made if len(made) > 1 else made[0]
    finally:
        for one in made:
            one.close()


def is_served(seconds=0.5):
    """Whether an OPTIONS to the proxy itself is answered within so many seconds."""
    with agents(Agent(CALLER + 1)) as asker:
        return asker.final(asker.ask("OPTIONS", "sip:127.0.0.1:5060"), seconds) is not None


def calls_gone(count):
    """Begins so many calls that are forgotten five seconds later."""
    with agents(Agent(CALLER)) as caller:
        for _ in range(count):
            if not caller.final(caller.ask("INVITE", "sip:gone@example.com"), 5):
                raise RuntimeError("a call that cannot be sent got no answer")


def watched(caller, silent, seconds=4.2, beside=lambda: True):
    """An INVITE to a silent telephone: when its copies came, in seconds; and whether what is asked beside it, twice a second, was so each time."""
    began, came, asked, held = time.monotonic(), [], 0, True
    call = caller.ask("INVITE", "sip:silent@example.com")
    while time.monotonic() < began + seconds:
        if silent.come(0.05, "INVITE", call):
            came.append(time.monotonic() - began)
        if time.monotonic() > began + 0.6 * (asked + 1):
            asked, held = asked + 1, beside() and held
    return came, held


def copies_hold(came, held, what):
    wanted = [0, 0.5, 1.5, 3.5]
    well_timed = len(came) == len(wanted) and all(abs(at - due) < 0.3 for at, due in zip(came, wanted))
    holds(well_timed, f"{what}, an INVITE to a silent telephone went out after {', '.join(f'{at:.2f}' for at in came) or 'no'} s (0, 0.5, 1.5 and 3.5 wanted)")
    holds(held, f"{what}, every OPTIONS was answered")


# ---- programs

def proxied(program, *words, **how):
    """A proxy, with the agents of this script in its configuration."""
    return Proxy(program, *words, others=OTHERS, **how) if "text" not in how else Proxy(program, *words, **how)


def own_text(port=5060, host="127.0.0.1", more=()):
    return "\n".join([f"own {host} {port}", "domain example.com", *more]) + "\n"


def refused(program, *words, text=None, name="-refused", **how):
    """How a proxy ends that is not to serve: its status, None where it listens, and what it said."""
    try:
        proxy = proxied(program, *words, name=name, **how) if text is None else Proxy(program, *words, text=text, name=name, **how)
    except NotListening as fault:
        try:
            status = common.children[-1].wait(3)
        except subprocess.TimeoutExpired:
            status = None
        return status, str(fault).replace("the proxy does not listen", "").strip(": \n")
    proxy.kill()
    return None, "it listens"


def told(proxy, line, limit):
    """What is answered to a line, and after how many seconds; no answer where that takes longer."""
    began = time.monotonic()
    try:
        said = proxy.tell(line, limit)
    except OSError:
        said = None
    return said, time.monotonic() - began


def stopped(proxy, seconds, limit):
    """Tells the proxy to stop: the seconds until it has ended; none where that takes longer than the limit."""
    began = time.monotonic()
    said, _ = told(proxy, f"stop {seconds}", limit)
    try:
        proxy.child.wait(max(0.1, began + limit - time.monotonic()))
    except subprocess.TimeoutExpired:
        return None
    return time.monotonic() - began if said else None


def ends(took, least, most, what):
    holds(took is not None and least <= took <= most, f"{what}: {'it had not ended' if took is None else f'{took:.2f} s'} ({least} to {most} wanted)")


def counted(proxy, name):
    return proxy.stats().get(name, 0)


class Page:
    """What the library that is loaded before the C library is told and tells, and how a program is started with it."""

    def __init__(self):
        path = os.path.join(common.FOLDER, "page")
        with open(path, "wb") as file:
            file.write(bytes(4096))
        library = os.path.join(common.FOLDER, "faults.so")
        subprocess.run(["cc", "-O2", "-Wall", "-D_GNU_SOURCE", "-shared", "-fPIC", "-o", library, os.path.join(common.HERE, "faults.c"), "-ldl"], check=True)
        with open(path, "r+b") as file:
            self.map = mmap.mmap(file.fileno(), 4096)
        self.how = {"env": dict(os.environ, LD_PRELOAD=library, FAULTS_PAGE=path)}

    def __getitem__(self, name):
        return struct.unpack_from("q", self.map, 8 * PAGE.index(name))[0]

    def __setitem__(self, name, value):
        struct.pack_into("q", self.map, 8 * PAGE.index(name), value)


@contextlib.contextmanager
def mounted(name, *words):
    """A folder with a file system of its own."""
    folder = os.path.join(common.FOLDER, name)
    os.mkdir(folder)
    if subprocess.run(["mount", *words, folder], stderr=subprocess.DEVNULL, check=False).returncode:
        raise Skipped("no file system can be mounted here")
    try:
        yield folder
    finally:
        subprocess.run(["umount", "-l", folder], check=False)


# ---- what is judged

def whole(text, stats, most):
    """Whether a journal's blocks are whole, each on lines of its own, and counted."""
    heads = len(re.findall(rb"^call \d+ \d+ INVITE ", text, re.MULTILINE))
    joined = re.findall(rb"^(?!call ).*call \d{10} \d+ INVITE .*$|^call .*call \d{10} \d+ INVITE .*$", text, re.MULTILINE)
    stats = stats or ""
    written, unwritten = (sum(map(int, re.findall(rf"^forkproxy_calls_{name}_total (\d+)$", stats, re.MULTILINE))) for name in ("journaled", "unwritten"))
    holds(not joined, f"no block begins within a line of another: {[line.decode('latin-1')[-120:] for line in joined[:1]] or 'none does'}")
    holds(written + unwritten == most and written <= heads <= written + 1, f"{heads} blocks are there; {written} are counted as written, {unwritten} as not ({most} calls)")


def replaced(proxy, made):
    """Puts another file into the place of the configuration, tells the proxy to reload, and puts the first back."""
    kept = proxy.config + ".kept"
    os.rename(proxy.config, kept)
    made(proxy.config)
    said, took = told(proxy, "reload", 5)
    os.remove(proxy.config)
    os.rename(kept, proxy.config)
    holds(bool(said) and said.startswith("refused") and took < 2, f"`reload`: {(said or 'no answer').strip()}, after {took:.2f} s")
    said, took = told(proxy, "reload", 5)
    holds(said == "taken\n", f"`reload` of the configuration as it was: {(said or 'no answer').strip()}")


def peer(path):
    """The process that listens at a control socket."""
    try:
        with connected(path) as way:
            return struct.unpack("3i", way.getsockopt(socket.SOL_SOCKET, socket.SO_PEERCRED, 12))[0]
    except OSError as fault:
        return fault.strerror


def judge_tell(program, path, what):
    began = time.monotonic()
    try:
        said = subprocess.run([program, "tell", path, "stats"], capture_output=True, text=True, timeout=30, check=False)
    except subprocess.TimeoutExpired:
        holds(False, f"{what}: `tell stats` had not ended after 30 s")
        return
    holds(said.returncode != 0, f"{what}: `tell stats` ended with {said.returncode} after {time.monotonic() - began:.1f} s: {said.stderr.strip()}")


def beside_dead(program):
    """40 INVITEs a second go to 40 addresses that nobody answers for, and ten calls a second to a telephone that is busy."""
    own = "10.9.0.1"
    proxy = Proxy(program, text=own_text(host=own, more=[f"location well 1000 sip:well@{own}:{TELEPHONE}", *(f"location dead{k} 1000 sip:dead@10.9.0.{k + 100}" for k in range(40))]))
    at = (own, 5060)
    telephone = Answering(Agent(TELEPHONE, own, at), well)
    caller, dead = Agent(CALLER, own, at), Agent(CALLER + 1, own, at)
    began, asked, took, n = time.monotonic(), {}, {}, 0
    while time.monotonic() < began + 12:
        if n < 400 and time.monotonic() >= began + n / 40:
            dead.ask("INVITE", f"sip:dead{n % 40}@example.com")
            if n % 4 == 0:
                asked[caller.ask("INVITE", "sip:well@example.com")] = time.monotonic()
            n += 1
        text = caller.come(0.005, "SIP/2.0 486")
        if text:
            call = call_of(text)
            took.setdefault(call, time.monotonic() - asked[call])
            caller.ask("ACK", "sip:well@example.com", call, ";tag=t")
    with_loss = counted(proxy, "lost_total")
    holds(len(took) == len(asked) and max(took.values()) < 1, f"{len(took)} of {len(asked)} calls beside them were answered, the slowest after {max(took.values(), default=0):.2f} s (1 at most); "
          f"{with_loss} datagrams found no room, {n} INVITEs went to addresses that nobody answers for")
    telephone.end()
    for one in (caller, dead):
        one.close()
    proxy.kill()


# ---- clients

def connected(path):
    way = socket.socket(socket.AF_UNIX)
    way.connect(path)
    return way


@contextlib.contextmanager
def dripping(way, byte, pause):
    """A client that sends a byte each so many seconds."""
    ended = threading.Event()

    def drip():
        with contextlib.suppress(OSError):
            while not ended.wait(pause):
                way.send(byte)

    thread = threading.Thread(target=drip, daemon=True)
    thread.start()
    try:
        yield
    finally:
        ended.set()
        thread.join()
        way.close()


# ---- a process

def write_over(proxy, old, new, places):
    """Writes a number into the memory of the process, where another one stands for the nth time, for these n, while it is stopped."""
    proxy.child.send_signal(signal.SIGSTOP)
    seen = 0
    with open(f"/proc/{proxy.pid}/maps") as maps, open(f"/proc/{proxy.pid}/mem", "r+b", buffering=0) as memory:
        for first, last in written_to(maps):
            memory.seek(first)
            part = memory.read(last - first)
            for at in range(0, len(part) - 7, 8):
                if part[at:at + 8] == old.to_bytes(8, "little"):
                    if seen in places:
                        memory.seek(first + at)
                        memory.write(new.to_bytes(8, "little"))
                    seen += 1
    proxy.child.send_signal(signal.SIGCONT)


def written_to(maps):
    """The parts of memory that a process may write to."""
    for line in maps:
        where, rights, *_ = line.split()
        if rights.startswith("rw"):
            yield (int(part, 16) for part in where.split("-"))


def after_a_billion(program):
    """A proxy whose next call has the number of a billion. It is written into its memory: which of the places that hold how many calls there were
    are those of the shelf, is seen by the branch of the next request."""
    for places in ((0, 1), (0, 1, 2), (0, 2), (1, 2), (0,), (1,)):
        proxy = proxied(program, "--journal", "JOURNAL")
        # (neither the allocator nor the program has cause to write this number down for anything else)
        calls_gone(1531)
        time.sleep(FORGOTTEN + 0.7)
        if proxy.stats()["calls"]:
            raise RuntimeError("calls are left")
        write_over(proxy, 1531, 1_000_000_000, places)
        with agents(Agent(CALLER), Agent(SILENT)) as (caller, silent):
            call = caller.ask("OPTIONS", "sip:silent@example.com")
            text = silent.come(1, "OPTIONS", call)
            if text and ".1000000000." in lines(text, "Via")[0]:
                silent.send(answer(text, 200, "OK", "t"))
                caller.final(call, 2)
                return proxy
        proxy.kill()
    raise Skipped("how many calls there were was not found in the memory of the process")
