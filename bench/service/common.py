"""What the scripts of this folder share: a network of their own, the generator of calls and the null relay, a proxy that is measured, what it
counts and what it takes. They need root (or leave to make a network), `unshare` and `ip`, cc and Python 3.8, and the service's program:
`./forkproxy prove forkproxyd` leaves it as out/forkproxyd. A machine does other work beside: so figures of one run are set against each other,
and it is said beside them how many processors the other work took."""
import atexit
import glob
import os
import resource
import select
import shutil
import signal
import socket
import subprocess
import sys
import tempfile
import time

HERE = os.path.dirname(os.path.abspath(__file__))
TOP = os.path.dirname(os.path.dirname(HERE))
PROXY = ("127.0.0.1", 5060)
LANES = 4
# SO_RCVBUFFORCE, which Python has no name for
RCVBUFFORCE = 33
FOLDER = None
failures = 0
children = []


# ---- the run

def begin():
    """Puts the script into a network of its own, and answers the program to be measured, which its first word names, and the words behind it."""
    global FOLDER
    if not os.environ.get("OWN_NETWORK"):
        for way in (["unshare", "-n"], ["unshare", "-rn"]):
            if subprocess.run([*way, "true"], stderr=subprocess.DEVNULL, check=False).returncode == 0:
                os.execvpe(way[0], [*way, sys.executable, *sys.argv], dict(os.environ, OWN_NETWORK="yes", PYTHONDONTWRITEBYTECODE="1"))
        sys.exit("no network of its own can be made: `unshare -n` needs root")
    subprocess.run(["ip", "link", "set", "lo", "up"], check=True)
    program = os.path.abspath(sys.argv[1]) if len(sys.argv) > 1 else os.path.join(TOP, "out", "forkproxyd")
    if not os.access(program, os.X_OK):
        sys.exit(f"{program} is not there: ./forkproxy prove forkproxyd makes it")
    FOLDER = tempfile.mkdtemp()
    os.chmod(FOLDER, 0o755)
    atexit.register(end)
    signal.signal(signal.SIGTERM, lambda *_: sys.exit(1))
    said = subprocess.run([program, "--version"], capture_output=True, text=True, check=False).stdout.strip()
    say(f"{os.path.basename(sys.argv[0])}: {said}, {os.cpu_count()} processors, load average {load()}, {time.strftime('%Y-%m-%d %H:%M:%S', time.gmtime())}")
    return program, sys.argv[2:]


def end():
    for child in children:
        if child.poll() is None:
            child.kill()
            child.wait()
    shutil.rmtree(FOLDER, ignore_errors=True)


def say(text):
    print(text, flush=True)


def holds(well, text):
    """Says whether what was wanted is so."""
    global failures
    failures += not well
    say(("holds: " if well else "DOES NOT HOLD: ") + text)


def finish():
    say(f"bars that do not hold: {failures}; load average {load()}")
    sys.exit(failures != 0)


def started(words, **how):
    child = subprocess.Popen(words, **how)
    children.append(child)
    return child


def built(source, name):
    """The program of a C source beside the scripts."""
    made = os.path.join(FOLDER, name)
    subprocess.run(["cc", "-O2", "-Wall", "-D_GNU_SOURCE", "-o", made, os.path.join(HERE, source)], check=True)
    return made


# ---- the machine

def load():
    with open("/proc/loadavg") as file:
        return file.read().split()[0]


def machine_busy():
    """For how many seconds processors have worked since the machine began, all together."""
    with open("/proc/stat") as file:
        user, nice, system, _, _, irq, softirq, steal = map(int, file.readline().split()[1:9])
    return (user + nice + system + irq + softirq + steal) / os.sysconf("SC_CLK_TCK")


def processor_time(pid):
    """The processor seconds that a process and its threads have taken, to the nanosecond."""
    return time.clock_gettime((~pid << 3) | 2)


def below(pid):
    """The processes that a process has begun."""
    found = []
    for path in glob.glob("/proc/[0-9]*/stat"):
        try:
            with open(path) as file:
                fields = file.read().rsplit(")", 1)[1].split()
        except OSError:
            continue
        if int(fields[1]) == pid:
            found.append(int(path.split("/")[2]))
    return found


def memory(pid):
    """The memory that a process holds, in bytes."""
    with open(f"/proc/{pid}/statm") as file:
        return int(file.read().split()[1]) * resource.getpagesize()


def lost():
    """How many datagrams of this network found no room in a socket."""
    with open("/proc/self/net/snmp") as file:
        names, values = [line.split()[1:] for line in file if line.startswith("Udp:")][:2]
    counted = dict(zip(names, map(int, values)))
    return counted["RcvbufErrors"] + counted["SndbufErrors"]


class Beside:
    """How many processors other work took, on average, since this was made."""

    def __init__(self):
        self.began, self.busy = time.monotonic(), machine_busy()

    def text(self, own):
        """`own` are the processor seconds of what was measured and of the generator."""
        return f"beside {max(0, machine_busy() - self.busy - own) / (time.monotonic() - self.began):.1f} busy processors"


# ---- what is measured

def configuration(instance, others=()):
    lines = [f"own {PROXY[0]} {PROXY[1]}", f"instance {instance}", "domain example.com"]
    for lane in range(LANES):
        first = 5081 + 100 * lane
        lines.append(f"location one{lane} 1000 sip:one@127.0.0.1:{first}")
        lines += [f"location four{lane} 1000 sip:t{k}@127.0.0.1:{first + k}" for k in range(4)]
    return "\n".join([*lines, *others]) + "\n"


def first_line(printed):
    """The first line that a proxy prints, behind what it says of whom it refuses."""
    line = printed.readline()
    return printed.readline() if line.startswith("neither trust nor realm") else line


class NotListening(SystemExit):
    """A proxy that was started does not listen: it ends the script, unless that expects it."""


class Proxy:
    """A forkproxyd that serves. Where several serve at once each has a name. `how` goes on to the start of the process."""

    def __init__(self, program, *words, instance=None, others=(), text=None, name="", **how):
        self.program, self.control, self.journal = program, os.path.join(FOLDER, "control" + name), os.path.join(FOLDER, "journal" + name)
        self.config = config = os.path.join(FOLDER, "configuration" + name)
        with open(config, "w") as file:
            file.write(text or configuration(instance or int(time.time()) % 2**31, others))
        # (the journal of a proxy before is not this one's)
        if os.path.exists(self.journal):
            os.remove(self.journal)
        words = [self.journal if word == "JOURNAL" else str(word) for word in words]
        self.child = started([program, "--config", config, "--control", self.control, *words], **{"stdout": subprocess.PIPE, "stderr": subprocess.STDOUT, "text": True, **how})
        self.pid = self.child.pid
        if self.child.stdout:
            self.hear_listening(self.child.stdout)

    def hear_listening(self, printed):
        """Waits until it says that it listens."""
        if not select.select([printed], [], [], 10)[0]:
            raise NotListening("the proxy does not listen")
        first = first_line(printed)
        if not first.startswith("listening"):
            raise NotListening("the proxy does not listen: " + first + printed.read())

    def tell(self, line, limit=60):
        """What comes back for a line over the control socket, each part of it within so many seconds."""
        with socket.socket(socket.AF_UNIX) as way:
            way.settimeout(limit)
            way.connect(self.control)
            way.sendall(line.encode() + b"\n")
            parts = []
            while True:
                part = way.recv(65536)
                if not part:
                    return b"".join(parts).decode()
                parts.append(part)

    def stats(self):
        """The counters; those of one name with several labels are summed."""
        counted = {}
        for line in self.tell("stats").splitlines():
            if line and not line.startswith("#"):
                name, value = line.rsplit(" ", 1)
                name = name.split("{")[0].removeprefix("forkproxy_")
                counted[name] = counted.get(name, 0) + int(float(value))
        return counted

    def spent(self):
        return processor_time(self.pid)

    def memory(self):
        return memory(self.pid)

    def stop(self, seconds=0):
        """Tells it to stop, waits for its end, and answers the seconds that `tell` took, and what was printed at the end."""
        began = time.monotonic()
        subprocess.run([self.program, "tell", self.control, "stop", str(seconds)], stdout=subprocess.DEVNULL, timeout=120, check=True)
        took = time.monotonic() - began
        printed = self.child.stdout.read().strip()
        self.child.wait(10)
        return took, printed

    def kill(self):
        self.child.kill()
        self.child.wait()


class Relay:
    """The null relay, which looks at no datagram: what comes from the caller goes to the telephone, and back."""

    def __init__(self):
        self.child = started([built("../serve/relay.c", "relay"), "5060", "5070", "5081"])
        self.pid = self.child.pid
        time.sleep(0.2)

    def spent(self):
        return processor_time(self.pid)

    def stop(self):
        self.child.kill()
        self.child.wait()


# ---- messages

def opened(port, host=PROXY[0]):
    """A socket of a caller's or of a telephone's, with room for what comes while the script does other things."""
    made = socket.socket(socket.AF_INET, socket.SOCK_DGRAM)
    with_room(made)
    made.bind((host, port))
    return made


def with_room(way):
    """Asks for 4 MB of room, beyond what `rmem_max` gives where the script may."""
    try:
        way.setsockopt(socket.SOL_SOCKET, RCVBUFFORCE, 4 << 20)
    except OSError:
        way.setsockopt(socket.SOL_SOCKET, socket.SO_RCVBUF, 4 << 20)


def lines(text, name):
    return [line for line in text.split("\r\n") if line.startswith(name + ":")]


def answer(text, status, reason, tag, contact="sip:t@127.0.0.1"):
    """The answer to a request, with these bytes and no body."""
    to = lines(text, "To")[0]
    kept = [*lines(text, "Via"), *lines(text, "Record-Route"), *lines(text, "From"), to if ";tag=" in to else f"{to};tag={tag}", *lines(text, "Call-ID"), *lines(text, "CSeq")]
    return "\r\n".join([f"SIP/2.0 {status} {reason}", *kept, f"Contact: <{contact}>", "Content-Length: 0", "", ""]).encode()


# ---- calls

def generator():
    return built("calls.c", "calls")


def play(calls, kind, count, **words):
    """Starts the generator; `outcome` tells what became of it."""
    return started([calls, kind, str(count), *(f"{name}={value}" for name, value in words.items())], stdout=subprocess.PIPE, text=True)


def outcome(playing):
    said = playing.communicate()[0]
    return {name: float(value) if "." in value else int(value) for name, value in (word.split("=") for word in said.split())}


def played(calls, what, kind, count, **words):
    """Plays calls, and answers what became of them, with the processor microseconds that `what` took for each, and the other work beside."""
    beside, before, dropped = Beside(), what.spent(), lost()
    told = outcome(play(calls, kind, count, **words))
    spent = what.spent() - before
    told["cost"] = spent / count * 1e6
    told["dropped"] = lost() - dropped
    told["beside"] = beside.text(spent + told["own"])
    return told


def share(values, part):
    """The value below which this part of the values lies."""
    values = sorted(values)
    return values[min(len(values) - 1, int(len(values) * part))]
