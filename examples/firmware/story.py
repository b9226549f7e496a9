#!/usr/bin/env python3
"""story.py PROGRAMS FOLDER [SECONDS]: a day of the dairy, with the box and its machines as programs on loopback.

PROGRAMS is the folder with box, machine and office. FOLDER is for keys and capabilities; keys that are there from an earlier run are used
again. No wait is longer than SECONDS (20), so that nothing hangs; the ports are the system's choice. Exit status: 0 all went as told, 1
something didn't.
"""
import concurrent.futures
import os
import queue
import re
import socket
import struct
import subprocess
import sys
import threading
import time

sys.dont_write_bytecode = True
HERE = os.path.dirname(os.path.abspath(__file__))
BOOK = os.path.join(HERE, "..", "dairy", "dairy.book")
PATIENCE = float(sys.argv[3]) if len(sys.argv) > 3 else 20      # seconds for a line that has to come
MACHINES = ["filler", "checkweigher", "labeller", "service panel", "capper"]    # hosts 1 to 5
GROUPS = [1, 1, 1, 2, 0]
RECIPE, LIMITS, PRINTING = 1, 2, 3                              # interfaces of the dairy's book, and some of their commands
READ, START, SET_VOLUME, SET_LEAST, PRINT, SET_DATE = 0, 1, 8, 3, 3, 4
LONGEST, LINE_MOST = 16384, 20000                               # a payload's bytes; those of a line that is typed


class Otherwise(Exception):
    """Something went otherwise than told."""


def see(true, what):
    if not true:
        raise Otherwise(what)


class Program:
    """A program that runs, with the lines that it has printed so far."""

    started = []

    def __init__(self, called, *words):
        self.called, self.heard, self.lines = called, [], queue.Queue()
        self.process = subprocess.Popen(words, stdin=subprocess.PIPE, stdout=subprocess.PIPE, stderr=subprocess.STDOUT)
        self.reader = threading.Thread(target=self.listen, daemon=True)
        self.reader.start()
        Program.started.append(self)

    def listen(self):
        for line in self.process.stdout:
            self.lines.put(line.decode("ascii", "replace").rstrip("\n"))
        self.lines.put(None)

    def tell(self, *lines):
        try:
            self.process.stdin.write("".join(line + "\n" for line in lines).encode("ascii"))
            self.process.stdin.flush()
        except BrokenPipeError:
            raise Otherwise("the %s is gone" % self.called)

    def tell_last(self, line):
        """A line without a newline, and then the end of its standard input."""
        self.process.stdin.write(line.encode("ascii"))
        self.process.stdin.close()

    def line(self, wanted):
        """Its next line; `wanted` is for the account if there is none."""
        try:
            line = self.lines.get(timeout=PATIENCE)
        except queue.Empty:
            raise Otherwise("the %s doesn't say: %s" % (self.called, wanted))
        see(line is not None, "the %s has ended, and didn't say: %s" % (self.called, wanted))
        self.heard.append(line)
        return line

    def next(self, pattern):
        """Its very next line, which has to be of that pattern."""
        line = self.line(pattern)
        match = re.fullmatch(pattern, line)
        see(match, "the %s says: %.200s\n    in the place of: %.200s" % (self.called, line, pattern))
        return match

    def until(self, pattern):
        """The first line of that pattern."""
        match = None
        while not match:
            match = re.fullmatch(pattern, self.line(pattern))
        return match

    def ask(self, line, pattern):
        self.tell(line)
        return self.next(pattern)

    def kill(self):
        self.process.kill()
        self.process.wait()

    def ended(self, status):
        try:
            got = self.process.wait(timeout=PATIENCE)
        except subprocess.TimeoutExpired:
            raise Otherwise("the %s doesn't end" % self.called)
        see(got == status, "the %s ends with status %d, not %d" % (self.called, got, status))

    @classmethod
    def end_all(cls):
        for program in cls.started:
            if program.process.poll() is None:
                program.kill()
            program.reader.join(timeout=PATIENCE)
            program.process.stdin.close()
            program.process.stdout.close()


class Plant:
    def __init__(self, programs, folder):
        self.programs, self.folder = programs, folder
        self.machines = {}

    def path(self, name):
        return os.path.join(self.folder, name)

    def program(self, name):
        return os.path.join(self.programs, name)

    # ---- the office

    def office(self, *words):
        subprocess.run([self.program("office"), *words], check=True, timeout=120, stdout=subprocess.DEVNULL)

    def draw_keys(self):
        pairs = [("box.pem", "box-public.pem")] + [("machine-%d.pem" % n, "%d.pem" % n) for n in range(1, len(MACHINES) + 1)]
        wanted = [(self.path(private), self.path(public)) for private, public in pairs if not os.path.exists(self.path(public))]
        with concurrent.futures.ThreadPoolExecutor(os.cpu_count()) as desks:
            list(desks.map(lambda pair: self.office("key", *pair), wanted))

    def issue(self, interface, entry):
        """The file with a capability for that entry, as the holder of the book's master secret issues it."""
        with open(BOOK, "rb") as file:
            book = file.read()
        rows = [struct.unpack_from("<HHII", book, 8 + 12 * k) for k in range(struct.unpack_from("<H", book, 2)[0])]
        at = next(start for kind, id, start, _ in rows if (kind, id) == (2, interface))
        with open(self.path("master"), "wb") as file:
            file.write(book[at:at + 16])
        name = self.path("capability-%d-%d" % (interface, entry))
        self.office("issue", self.path("master"), str(entry), name)
        return name

    # ---- the box and the machines

    def phase(self, name, expected):
        """What the box's list says of a machine."""
        self.box.tell("list")
        host = MACHINES.index(name) + 1
        got = self.box.until(r"console: host %d group \d+ %s: (.*), last number \d+" % (host, name))[1]
        see(got == expected, "the %s is %s in the box's list, not %s" % (name, got, expected))
        self.box.until("console: that is all")

    def open_files(self):
        return len(os.listdir("/proc/%d/fd" % self.box.process.pid))

    def start_box(self):
        self.box = Program("box", self.program("box"), BOOK, self.folder)
        self.box.next("load: 0 accepted")
        self.control = int(self.box.next(r"control port (\d+)")[1])
        self.command = int(self.box.next(r"command port (\d+)")[1])

    def machine(self, name, key=None, group=None, command=None):
        """A machine as a program; `key`: whose private key it has; `command`: a port in the place of the box's for commands."""
        host = MACHINES.index(name) + 1 if name in MACHINES else 1
        return Program(name, self.program("machine"), name, str(GROUPS[host - 1] if group is None else group),
                       self.path("machine-%d.pem" % (key or host)), self.path("box-public.pem"), str(self.control), str(command or self.command))

    def connect(self, name):
        """Has a machine connect, for the first time or again."""
        host = MACHINES.index(name) + 1
        if name not in self.machines:
            self.machines[name] = self.machine(name)
        machine = self.machines[name]
        machine.ask("connect", "connected as host %d" % host)
        self.box.until("channel [0-9]+, control of host %d: request: 0 accepted" % host)
        self.box.until("channel [0-9]+, control of host %d: proof: 0 accepted" % host)
        return machine

    def judged(self, number):
        """The next command that the box judges is answered by that number."""
        got = int(self.box.until(r"channel \d+, command of (?:nobody|host \d+): command: (\d+) .*")[1])
        see(got == number, "the box answers %d in the place of %d: %s" % (got, number, self.box.heard[-1]))

    def accepted(self, machine, interface, command, payload=""):
        """A command that goes through: the box carries it out, and its reply is opened. Its number."""
        number = int(machine.ask("send %d %d %s" % (interface, command, payload), r"sent (\d+)")[1])
        self.judged(0)
        self.box.next(r"carried out for host \d+, number %d: interface %d command %d by capability \d+, payload %d bytes: %s"
                      % (number, interface, command, len(payload), payload[:80]))
        self.box.next(r"channel \d+, command of host \d+: reply: 0 accepted")
        machine.next("reply %d: 0 accepted: %s" % (number, payload))
        return number

    def refused(self, by, machine, interface, command, payload=""):
        """A command that the box refuses. It is told to the machine by nothing: its next line is about its next command."""
        machine.ask("send %d %d %s" % (interface, command, payload), r"sent \d+")
        self.judged(by)

    def all_go_on(self, but=()):
        """Every machine that is connected reads something, on the connection that it has."""
        for name, (interface, entry) in READING.items():
            if name not in but:
                machine = self.machines[name]
                machine.ask("take %s" % self.issue(interface, entry), "taken")
                number = self.accepted(machine, interface, READ, "read by the %s" % name)
                see(number > 1, "the %s is on a new connection" % name)

    def raw(self, port, message):
        """Bytes on a new channel, which the box then closes."""
        with socket.create_connection(("127.0.0.1", port), timeout=PATIENCE) as channel:
            channel.sendall(message)
            self.closes(channel, message)

    def closes(self, channel, message):
        try:
            got = channel.recv(1)
        except ConnectionResetError:                            # closed with bytes of ours unread
            got = b""
        except socket.timeout:
            raise Otherwise("the box doesn't close the channel of %.20s" % message.hex())
        see(got == b"", "the box answers %.20s" % message.hex())


READING = {"filler": (RECIPE, 1), "checkweigher": (LIMITS, 1), "labeller": (PRINTING, 1), "service panel": (RECIPE, 2), "capper": (RECIPE, 3)}


# ---- the scenes, in the order in which they are played

def damaged_books(plant):
    """a damaged book: the box names the fault and its place, and ends"""
    with open(BOOK, "rb") as file:
        book = file.read()
    bad = {"empty": (b"", 40, 0), "cut": (book[:-1], 40, 4), "letter": (book[:-1] + b" ", 47, len(book) - 1), "long": (bytes(12233), 40, 0),
           "format": (b"\2" + book[1:], 41, 0)}
    for name, (damaged, number, place) in bad.items():
        with open(plant.path("book"), "wb") as file:
            file.write(damaged)
        box = Program("box", plant.program("box"), plant.path("book"), plant.folder)
        box.next("refused %d at %d: .*" % (number, place))
        box.next("the box has failed")
        box.ended(1)


def no_key(plant):
    """a host without a key: the box doesn't start"""
    box = Program("box", plant.program("box"), BOOK, plant.path("nowhere"))
    box.until("the box has failed")
    box.ended(1)


def connections(plant):
    """the box starts and the dairy's machines connect"""
    plant.start_box()
    plant.files = plant.open_files()
    for name in MACHINES:
        plant.connect(name)


def ordinary(plant):
    """a command is carried out, and its reply opened"""
    panel = plant.machines["service panel"]
    panel.ask("take %s" % plant.issue(RECIPE, 2), "taken")
    see(plant.accepted(panel, RECIPE, SET_VOLUME, "volume 500 ml") == 1, "the first number is 1")
    plant.accepted(panel, RECIPE, READ)
    plant.accepted(panel, RECIPE, SET_VOLUME, "m" * LONGEST)
    panel.ask("send %d %d %s" % (RECIPE, SET_VOLUME, "m" * (LONGEST + 1)), "seal: 30 payload too long")


def interleaved(plant):
    """two machines at once, thirty commands each"""
    works = {"checkweigher": (LIMITS, SET_LEAST), "labeller": (PRINTING, PRINT)}
    for name, (interface, _) in works.items():
        plant.machines[name].ask("take %s" % plant.issue(interface, 1), "taken")
    for k in range(1, 31):
        for name, (interface, command) in works.items():
            plant.machines[name].tell("send %d %d %s %d" % (interface, command, name, k))
    for name in works:
        said = [plant.machines[name].line("sent or reply") for _ in range(60)]
        replies = [line for line in said if line.startswith("reply")]
        see(replies == ["reply %d: 0 accepted: %s %d" % (k, name, k) for k in range(1, 31)], "replies of the %s: %s" % (name, replies[:3]))
    for _ in range(60):
        plant.judged(0)


def narrowed(plant):
    """a narrowed capability does what it permits (0) and nothing else (18); no word can be taken out (19)"""
    labeller, filler = plant.machines["labeller"], plant.machines["filler"]
    labeller.ask("take %s" % plant.issue(PRINTING, 1), "taken")
    plant.accepted(labeller, PRINTING, SET_DATE, "1 March")
    labeller.ask("narrow %x" % (1 << READ | 1 << PRINT), "narrow: 0 accepted")
    plant.accepted(labeller, PRINTING, PRINT, "label")
    plant.refused(18, labeller, PRINTING, SET_DATE, "2 March")
    plant.accepted(labeller, PRINTING, READ)
    with open(plant.path("handed-on"), "wb"):
        os.chmod(plant.path("handed-on"), 0o644)
    labeller.ask("keep %s" % plant.path("handed-on"), "kept")
    for name in ("handed-on", "box.pem", os.path.basename(plant.issue(PRINTING, 1))):
        see(os.stat(plant.path(name)).st_mode & 0o777 == 0o600, "others may read the file %s" % name)
    filler.ask("take %s" % plant.path("handed-on"), "taken")
    plant.accepted(filler, PRINTING, PRINT, "label by the filler")
    plant.refused(18, filler, PRINTING, SET_DATE, "3 March")
    with open(plant.path("handed-on"), "rb") as file:
        held = file.read()
    with open(plant.path("widened"), "wb") as file:
        file.write(held[:2] + b"\xff" * 8 + held[10:])
    filler.ask("take %s" % plant.path("widened"), "taken")
    plant.refused(19, filler, PRINTING, SET_DATE, "4 March")


def revoked(plant):
    """the panel's right is withdrawn mid-connection: its next command is refused (18), what is left goes through"""
    panel = plant.machines["service panel"]
    before = plant.accepted(panel, RECIPE, SET_VOLUME, "volume 510 ml")
    plant.box.ask("revoke 1 2 1", "console: revoke interface 1 entry 2 word 0000000000000001: 0 accepted")
    plant.refused(18, panel, RECIPE, SET_VOLUME, "volume 520 ml")
    see(plant.accepted(panel, RECIPE, READ, "read it") == before + 2, "the panel is on the same connection")


def typed(plant):
    """what the console answers: 14, 15, a list, and to words that it doesn't know"""
    plant.box.ask("revoke 9 1 0", "console: revoke interface 9 entry 1 word 0+: 14 no such interface")
    plant.box.ask("revoke 1 4 0", "console: revoke interface 1 entry 4 word 0+: 15 no such entry")
    for line in ("revoke 1 2", "revoke 1 2 x", "revoke 1 -2 0", "revoke 1 2 11112222333344445"):
        plant.box.ask(line, "console: revoke INTERFACE ENTRY WORD: .*")
    for line in ("hello", "h" * LINE_MOST + "revoke 1 2 0"):
        plant.box.ask(line, "console: the words are .*")
    plant.box.tell("list")
    plant.box.next("console: host 1 group 1 filler: open, last number [0-9]+")
    plant.box.until("console: host 4 group 2 service panel: open, last number [0-9]+")
    plant.box.until("console: interface 1 entry 2 group 2 word 0000000000000001")
    plant.box.until("console: that is all")


def doubled(plant):
    """a reply comes a second time: its machine doesn't open it, and ends its connection"""
    plant.machines["capper"].ask("close", "closed")
    plant.box.until("channel [0-9]+, control of host 5: close: 0 accepted")
    with socket.create_server(("127.0.0.1", 0)) as between:
        between.settimeout(PATIENCE)
        capper = plant.machine("capper", command=between.getsockname()[1])
        capper.ask("connect", "connected as host 5")
        capper.ask("take %s" % plant.issue(RECIPE, 3), "taken")
        capper.ask("send %d %d once" % (RECIPE, READ), "sent 1")
        with between.accept()[0] as near, socket.create_connection(("127.0.0.1", plant.command), timeout=PATIENCE) as far:
            near.settimeout(PATIENCE)
            far.sendall(near.makefile("rb").read(2 + 96 + len("once")))
            near.sendall(2 * far.makefile("rb").read(2 + 32 + len("once")))
            near.shutdown(socket.SHUT_WR)                       # a machine that says nothing to the second one says something to this
            plant.judged(0)
            capper.next("reply 1: 0 accepted: once")
            capper.next("reply 1: no command waits for it")
            capper.ask("send %d %d twice" % (RECIPE, READ), "not connected")
    plant.box.until("channel [0-9]+, (?:control|command) of host 5: close: 0 accepted")
    plant.connect("capper")


def stale(plant):
    """a packet comes a second time (12), and its machine goes on"""
    weigher = plant.machines["checkweigher"]
    plant.accepted(weigher, LIMITS, SET_LEAST, "least 498 g")
    weigher.ask("repeat", r"sent again \d+")
    plant.judged(12)
    plant.accepted(weigher, LIMITS, SET_LEAST, "least 499 g")


def killed(plant):
    """a machine is killed in the middle of a handshake, and one in the middle of a frame, while the others go on"""
    plant.machines["capper"].ask("close", "closed")
    plant.box.until("channel [0-9]+, control of host 5: close: 0 accepted")
    half, stalled = plant.machine("capper"), plant.machine("capper")
    half.ask("half", "challenge 2 is here, and the proof isn't sent")
    plant.box.until("channel [0-9]+, control of host 5: request: 0 accepted")
    stalled.ask("stall control", "194 random bytes on the control channel")
    plant.box.until("channel [0-9]+, control of nobody: new")
    stalled.ask("stall command", "194 random bytes on the command channel")
    plant.box.until("channel [0-9]+, command of nobody: new")
    plant.phase("capper", "waiting")
    plant.all_go_on(but=["capper"])
    half.kill()
    plant.box.until("channel [0-9]+, control of host 5: ended by the other side")
    stalled.kill()
    for _ in range(2):
        plant.box.until("channel [0-9]+, (?:control|command) of nobody: ended by the other side")
    plant.phase("capper", "idle")
    plant.all_go_on(but=["capper"])


def again(plant):
    """a machine connects again, and its numbers begin again at 1"""
    capper = plant.connect("capper")
    capper.ask("take %s" % plant.issue(RECIPE, 3), "taken")
    see(plant.accepted(capper, RECIPE, READ) == 1, "the first number is 1")
    plant.refused(18, capper, RECIPE, START)
    weigher = plant.connect("checkweigher")
    see(plant.accepted(weigher, LIMITS, SET_LEAST, "least 500 g") == 1, "the first number is 1")


def garbage(plant):
    """garbage on each channel ends that machine's connection and nobody else's"""
    for name, channel, length in (("filler", "control", 384), ("filler", "control", 385), ("labeller", "command", 100),
                                  ("labeller", "command", 95), ("labeller", "command", 16481), ("labeller", "command", 65535)):
        machine = plant.machines[name]
        machine.ask("garbage %s %d" % (channel, length), r"\d+ random bytes on the %s channel" % channel)
        host = MACHINES.index(name) + 1
        plant.box.until("channel [0-9]+, %s of host %d: close: 0 accepted" % (channel, host))
        machine.next("the box has closed the (control|command) channel")
        plant.phase(name, "idle")
        plant.all_go_on(but=["filler", "labeller"])
        plant.connect(name)
        machine.ask("take %s" % plant.issue(*READING[name]), "taken")
        plant.accepted(machine, READING[name][0], READ)
    plant.all_go_on()


def strangers(plant):
    """bytes from nobody: the box names what is wrong, closes their channel and answers nothing"""
    def packet(length, client=5, zeros=0, vector=0):
        return struct.pack("<HHHB", length, client, zeros, vector) + bytes(length - 5)
    for number, bad in ((1, packet(95)), (3, packet(96, zeros=1)), (4, packet(96, client=0)), (4, packet(96, client=6)),
                        (5, packet(96, vector=128)), (8, packet(96)), (8, packet(16480))):
        plant.raw(plant.command, bad)
        plant.judged(number)
    plant.machines["capper"].ask("close", "closed")
    plant.box.until("channel [0-9]+, (?:control|command) of host 5: close: 0 accepted")
    plant.raw(plant.command, packet(96))
    plant.judged(6)
    for bad in (b"\0\0", b"\xff\xff", struct.pack("<H", 384) + bytes(384), struct.pack("<H", 1) + b"x"):
        plant.raw(plant.control, bad)
    plant.all_go_on(but=["capper"])


def impostors(plant):
    """a stranger under a machine's name gets no connection; one under a name that isn't in the book isn't heard (23)"""
    stranger = plant.machine("spare", key=1)
    stranger.ask("connect", "the box has closed the control channel")
    plant.box.until("channel [0-9]+, control of nobody: request: 23 no such host name")
    stranger.tell_last("close")
    stranger.next("closed")
    stranger.ended(0)
    impostor = plant.machine("capper", key=1)
    impostor.ask("connect", "a message that isn't encrypted for this machine")
    plant.box.until("channel [0-9]+, control of host 5: request: 0 accepted")
    plant.box.until("channel [0-9]+, control of host 5: ended by the other side")
    plant.phase("capper", "idle")
    plant.all_go_on(but=["capper"])
    plant.accepted(plant.connect("capper"), RECIPE, READ)


def crowd(plant):
    """two hundred silent channels: the oldest make way, the machines keep theirs, and one more can connect"""
    silent = []
    try:
        for k in range(200):
            silent.append(socket.create_connection(("127.0.0.1", (plant.control, plant.command)[k % 2]), timeout=PATIENCE))
            plant.box.until("channel [0-9]+, (?:control|command) of nobody: new")
        plant.all_go_on()
        weigher = plant.connect("checkweigher")
        plant.accepted(weigher, LIMITS, READ)
    finally:
        for channel in silent:
            channel.close()


def greedy(plant):
    """a machine that sends and doesn't read its replies loses its connection, and holds up nobody"""
    filler = plant.machines["filler"]
    filler.ask("take %s" % plant.issue(RECIPE, 1), "taken")
    filler.tell("flood %d %d" % (RECIPE, START))
    plant.box.until("channel [0-9]+, command of host 1: the machine doesn't read its replies")
    filler.next("it can't be sent")
    filler.until("the box has closed the (control|command) channel")
    plant.all_go_on(but=["filler"])
    plant.accepted(plant.connect("filler"), RECIPE, START)


def ending(plant):
    """`quit`: status 0, no file left open, every channel closed, and nobody listens any more"""
    plant.box.tell("list")
    plant.box.until("console: that is all")
    limit = time.monotonic() + PATIENCE
    while plant.open_files() != plant.files + 2 * len(MACHINES) and time.monotonic() < limit:
        time.sleep(0.02)                                        # the crowd's channels are still being closed
    see(plant.open_files() == plant.files + 2 * len(MACHINES), "the box has %d files open, not two for each machine beside the %d that it began "
        "with" % (plant.open_files(), plant.files))
    plant.box.tell("quit")
    plant.box.until("the box has ended")
    plant.box.ended(0)
    for name, machine in plant.machines.items():
        machine.next("the box has closed the (control|command) channel")
        machine.tell("quit")
        machine.ended(0)
    for port in (plant.control, plant.command):
        with socket.socket() as channel:
            see(channel.connect_ex(("127.0.0.1", port)) != 0, "somebody still listens at %d" % port)


SCENES = [damaged_books, no_key, connections, ordinary, interleaved, narrowed, revoked, typed, doubled, stale, killed, again, garbage,
          strangers, impostors, crowd, greedy, ending]


def play(plant):
    """Plays the scenes. The one that went otherwise, and why."""
    for scene in SCENES:
        began = time.monotonic()
        try:
            scene(plant)
        except Otherwise as why:
            return scene, str(why)
        print("ok %5.2f s  %s" % (time.monotonic() - began, scene.__doc__), flush=True)
    return None


def main(programs, folder):
    plant = Plant(programs, folder)
    began = time.monotonic()
    plant.draw_keys()
    print("ok %5.2f s  keys" % (time.monotonic() - began), flush=True)
    try:
        wrong = play(plant)
    finally:
        Program.end_all()
    if wrong is None:
        print("story.py: all went as told")
        return 0
    print("NOT OK: %s\n    %s" % (wrong[0].__doc__, wrong[1]))
    for program in Program.started:
        print("    the last lines of the %s:%s" % (program.called, "".join("\n        %.200s" % line for line in program.heard[-5:])))
    return 1


if __name__ == "__main__":
    if len(sys.argv) not in (3, 4):
        sys.exit("usage: story.py PROGRAMS FOLDER [SECONDS]")
    sys.exit(main(*sys.argv[1:3]))
