#!/usr/bin/env python3
"""day.py [FOLDER]: writes a day of the dairy to FOLDER (default: beside this script).

    day.trace     the calls of the day (docs/TRACES.md), over the book dairy.book
    day.expect    what `replay` must print for them, by the model in tests/traces
    day.txt       the account: a paragraph for each scene, and a line for each answer, in the trace's order

A scene begins with a note, so that its title stands among the answers too. Each call below names the number that the story needs;
if the model gives another, nothing is written. Secrets and challenges are EXAMPLE VALUES, readable on purpose: a plant draws its
own at random.
"""
import os
import sys
import textwrap

sys.dont_write_bytecode = True
HERE = os.path.dirname(os.path.abspath(__file__))
sys.path.insert(0, os.path.join(HERE, "..", "..", "tests", "traces"))
import aes
import model
import traces

WIDTH, INDENT = 104, "   "
ONES = model.ONES
LINE = 1                                                        # a group
RECIPE, LIMITS, PRINTING = 1, 2, 3                              # interfaces
READ, START = 0, 1                                              # commands of every interface
SET_VOLUME, CLEAN_IN_PLACE = 8, 33                              # filler recipe
SET_LEAST, ZERO_SCALE = 3, 33                                   # checkweigher limits
PRINT, SET_DATE, SET_LOT = 3, 4, 5                              # labeller print

TITLE = "A day of the dairy"
INTRODUCTION = """Five machines are in the dairy's book: filler (host 1), checkweigher (2), labeller (3), service panel (4)
    and capper (5). The first three are the group "line" (1), the panel is the group "service" (2), and the capper is in no
    group. An interface's entries say which group may give it which commands. Each line that begins with "-" is one call, and
    the gateway answers each with 0 for accepted or the number of a refusal (document 01, "Numbers of refusal")."""


def bits(*commands):
    return sum(1 << command for command in commands)


def filled(paragraph, indent=""):
    return textwrap.fill(" ".join(paragraph.split()), WIDTH, initial_indent=indent, subsequent_indent=indent) + "\n"


class Machine:
    """A machine of the line as a client: its key, the numbers and the vectors that it used."""

    def __init__(self, day, id, name, group):
        self.day, self.id, self.name, self.group = day, id, name, group
        self.key, self.number, self.vectors = None, 0, 0

    def request(self):
        """Asks for a connection; challenge 2."""
        self.day.challenges += 1
        first, second = (b"%s challenge %02d" % (which, self.day.challenges) for which in (b"1st", b"2nd"))
        packet = bytes([1, 0]) + model.sixteen(len(self.name)) + first + self.name.encode("ascii")
        self.day.call("the %s asks for a connection" % self.name, 0, "request", packet, second, 32)
        return second

    def prove(self, second):
        third = b"3rd" + second[3:]
        self.day.call("the %s answers the challenge: its connection is open" % self.name, 0, "proof", self.id, second + third, 20)
        self.key, self.number = aes.encrypt(second, third), 0

    def connect(self):
        self.prove(self.request())

    def fields(self, held, interface, command, payload, group, number):
        """The fields of a call that seals a command."""
        self.vectors += 1
        vector = bytes([self.id]) + self.vectors.to_bytes(11, "big")
        return (self.key, vector, held, self.id, number or self.number + 1, self.group if group is None else group, interface,
                command, payload, 96 + len(payload))

    def packet(self, held, interface, command, payload=b"", group=None, number=None):
        """A sealed packet, with the next number unless one is given."""
        return model.seal(20000, model.Work(), *self.fields(held, interface, command, payload, group, number)[:-1]).written

    def hand_in(self, what, expected, packet):
        """Has the gateway check a packet."""
        answer = self.day.call(what, expected, "command", packet, len(packet) - 96)
        if answer.number == 0:
            self.number = answer.fields[1]

    def send(self, what, expected, held, interface, command, payload=b"", group=None):
        self.hand_in(what, expected, self.packet(held, interface, command, payload, group))


class Day:
    def __init__(self, book):
        self.replayed, self.calls, self.lines = model.Machine(), [], []
        self.account = ["%s\n%s\n\n" % (TITLE, "=" * len(TITLE)), filled(INTRODUCTION)]
        self.book, self.challenges, self.scenes = book, 0, 0
        said = model.books.contents(book)
        self.filler, self.checkweigher, self.labeller, self.panel, self.capper = (
            Machine(self, id, host.name.decode("ascii"), host.group) for id, host in enumerate(said.hosts, 1))
        self.secrets = [face.secret for face in said.interfaces]

    # ---- writing

    def put(self, name, *fields):
        self.calls.append(traces.write(name, fields))
        said = self.replayed.perform(name, fields)
        if said is not None:
            self.lines.append(said + "\n")

    def scene(self, title, paragraph):
        self.scenes += 1
        title = "%d. %s" % (self.scenes, title)
        self.put("note", title.encode("ascii"))
        self.account += ["\n%s\n" % title, filled(paragraph, INDENT), "\n"]

    def call(self, what, expected, name, *fields):
        """A call whose answer the story needs to be `expected`."""
        self.account.append("%s- %s\n" % (INDENT, what))
        self.put(name, *fields)
        answer = self.replayed.answer
        if answer.number != expected:
            raise SystemExit("day.py: %s: the model answers %d, and the story needs %d" % (what, answer.number, expected))
        return answer

    def look(self, what):
        self.account.append("%s- %s\n" % (INDENT, what))
        self.put("dump")

    def issued(self, interface, entry):
        """A capability for that entry, as the holder of the master secret issues it."""
        return model.issue(50, model.Work(), self.secrets[interface - 1], entry).written

    # ---- the scenes

    def morning(self):
        self.scene("The gateway starts", """The gateway loads the dairy's book: five machines, three interfaces. Nobody is
            connected yet.""")
        self.call("the book is loaded", 0, "load", self.book)
        self.look("the state: a record for each machine, then the present word of each entry")

    def connections(self):
        self.scene("The machines connect", """Each machine names itself and sends challenge 1; the gateway sends it back with
            challenge 2. The machine answers with challenge 2 and adds challenge 3, and from these two both sides work out the
            key: one AES block. (What RSA does to these messages is done before they reach the gateway.)""")
        for machine in (self.panel, self.checkweigher, self.labeller, self.filler):
            machine.connect()

    def ordinary_command(self):
        self.scene("An ordinary command and its reply", """The office holds the master secret of "filler recipe" and issues a
            capability for entry 2, the service's. The panel seals "set the volume" (command 8) with it, the gateway checks the
            packet and hands on its payload, and the reply goes back sealed.""")
        panel, payload, answer = self.panel, b"volume 500 ml", b"volume is 500 ml"
        self.recipe = self.call("the office issues the capability", 0, "issue", self.secrets[RECIPE - 1], 2, 50).written
        sealed = self.call("the panel seals its command, number 1", 0, "seal",
                           *panel.fields(self.recipe, RECIPE, SET_VOLUME, payload, None, None)).written
        panel.hand_in("the gateway checks it", 0, sealed)
        reply = self.call("the reply is sealed", 0, "reply", panel.id, 1, answer, 32 + len(answer)).written
        self.call("the panel opens the reply", 0, "open", panel.key, 1, reply, len(answer))

    def right_withdrawn(self):
        self.scene("The panel's recipe right is withdrawn", """The shift leader takes all of "filler recipe" but reading away
            from the service's entry. The panel's connection stays open, and nothing of an earlier verdict is remembered: its
            very next command is refused with 18. The refused number isn't used up, and what is still permitted goes through on
            the same connection.""")
        panel = self.panel
        panel.send("the panel sets the volume once more, number 2", 0, self.recipe, RECIPE, SET_VOLUME, b"volume 510 ml")
        self.call("the right is withdrawn: entry 2 keeps command 0 alone", 0, "revoke", RECIPE, 2, bits(READ))
        panel.send("the panel tries to set the volume, number 3", 18, self.recipe, RECIPE, SET_VOLUME, b"volume 520 ml")
        self.look("the state: the panel (host 4) is still connected, its last number is 2")
        panel.send("the panel reads the recipe, number 3", 0, self.recipe, RECIPE, READ)

    def own_bits(self):
        self.scene("Command 33 has a bit of its own", """33 is 1 and 32 more, so a gateway that shifts within 32 bits would take
            one for the other. Entry 2 of "checkweigher limits" permits command 33 (zero the scale) and nothing else; the line's
            entry of "filler recipe" permits command 1 (start) and not 33 (clean in place).""")
        zeroing, starting = self.issued(LIMITS, 2), self.issued(RECIPE, 1)
        self.panel.send("the panel zeroes the scale: command 33, bit 33 is there", 0, zeroing, LIMITS, ZERO_SCALE)
        self.panel.send("by the same entry it tries to start the checkweigher: command 1", 18, zeroing, LIMITS, START)
        self.filler.send("the filler starts: command 1, bit 1 is there", 0, starting, RECIPE, START)
        self.filler.send("by the same entry it tries to clean in place: command 33", 18, starting, RECIPE, CLEAN_IN_PLACE)

    def talkative_labeller(self):
        self.scene("A talkative labeller", """The labeller sends eight commands between two of the checkweigher's. Each machine
            has its own numbers: what the labeller says leaves the checkweigher's alone, and its packet of before is stale all
            the same.""")
        limits, printing = self.issued(LIMITS, 1), self.issued(PRINTING, 1)
        first = self.checkweigher.packet(limits, LIMITS, SET_LEAST, b"least 498 g")
        self.checkweigher.hand_in("the checkweigher sets its least weight, number 1", 0, first)
        for number in range(1, 9):
            self.labeller.send("the labeller prints, number %d" % number, 0, printing, PRINTING, PRINT, b"label %d" % number)
        self.checkweigher.send("the checkweigher sets it again, number 2", 0, limits, LIMITS, SET_LEAST, b"least 499 g")
        self.checkweigher.hand_in("its packet of number 1 comes a second time", 12, first)
        self.look("the state: the checkweigher (host 2) is at 2, the labeller (host 3) at 8")

    def narrowed_twice(self):
        self.scene("A capability narrowed twice", """The line's entry of "labeller print" permits commands 0 to 5. The office
            hands its capability to the labeller, narrowed to reading, printing and the date (0, 3, 4). The labeller narrows it
            to reading, printing and the lot (0, 3, 5), without the master secret, and hands it to the filler. What is left is
            what both words permit: reading and printing. Taking a word out again needs the secret of before, which the filler
            doesn't have.""")
        filler = self.filler
        office = self.call("the office issues the capability", 0, "issue", self.secrets[PRINTING - 1], 1, 50).written
        once = self.call("the office narrows it to 0, 3, 4", 0, "narrow", office, bits(READ, PRINT, SET_DATE), 50).written
        twice = self.call("the labeller narrows it to 0, 3, 5", 0, "narrow", once, bits(READ, PRINT, SET_LOT), 50).written
        filler.send("the filler prints (3): both words have the bit", 0, twice, PRINTING, PRINT, b"label by the filler")
        filler.send("it tries to set the date (4): the second word lacks the bit", 18, twice, PRINTING, SET_DATE, b"1 March")
        filler.send("it tries to set the lot (5): the first word lacks the bit", 18, twice, PRINTING, SET_LOT, b"lot 7")
        held = model.take_capability(twice)
        widened = model.capability_bytes(held._replace(words=(held.words[0], ONES, ONES, ONES)))
        filler.send("it takes the second word out and tries to set the date", 19, widened, PRINTING, SET_DATE, b"1 March")
        self.labeller.send("the labeller, narrowed once, sets the date", 0, once, PRINTING, SET_DATE, b"1 March")

    def damaged_packet(self):
        self.scene("A damaged packet", """On its way one bit of a packet of the checkweigher is flipped. The tag is wrong,
            nothing is deciphered, and the number isn't used up: the undamaged packet is accepted afterwards.""")
        packet = self.checkweigher.packet(self.issued(LIMITS, 1), LIMITS, SET_LEAST, b"least 497 g")
        damaged = packet[:-1] + bytes([packet[-1] ^ 4])
        self.checkweigher.hand_in("the damaged packet, number 3", 8, damaged)
        self.checkweigher.hand_in("the undamaged packet, number 3", 0, packet)

    def claimed_twice(self):
        self.scene("A reply claimed twice", """A command gives the right to one reply. The second is refused with 29, and so is
            one for a command before the last. The checkweigher takes the reply only as the one for the number that it expects.""")
        weigher, answer = self.checkweigher, b"least is 497 g"
        room = 32 + len(answer)
        self.call("a reply for number 2, whose claim has ended", 29, "reply", weigher.id, 2, answer, room)
        reply = self.call("the reply for number 3", 0, "reply", weigher.id, 3, answer, room).written
        self.call("the reply for number 3 again", 29, "reply", weigher.id, 3, answer, room)
        self.call("the checkweigher opens it as the reply for number 4", 5, "open", weigher.key, 4, reply, len(answer))
        self.call("the checkweigher opens it as the reply for number 3", 0, "open", weigher.key, 3, reply, len(answer))

    def restart(self):
        self.scene("The checkweigher restarts", """Its connection ends with the new request. A packet of the old connection
            finds first a machine that isn't connected, and then another key; its number doesn't help it. Numbers begin again at
            1.""")
        weigher, limits = self.checkweigher, self.issued(LIMITS, 1)
        old = weigher.packet(limits, LIMITS, SET_LEAST, b"least 400 g")
        second = weigher.request()
        weigher.hand_in("a packet of the old connection, number 4", 6, old)
        weigher.prove(second)
        weigher.hand_in("the same packet, on the new connection", 8, old)
        weigher.send("the checkweigher sets its least weight, number 1", 0, limits, LIMITS, SET_LEAST, b"least 498 g")

    def no_group(self):
        self.scene("The capper is in no group", """It may use the entries that are for anyone, as group 0, and no others.
            Claiming a group doesn't make it a member.""")
        capper, anyone, line = self.capper, self.issued(RECIPE, 3), self.issued(RECIPE, 1)
        capper.connect()
        capper.send("the capper reads the recipe by the entry for anyone", 0, anyone, RECIPE, READ)
        capper.send("by the same entry it tries to start the filler", 18, anyone, RECIPE, START)
        capper.send("by the line's entry it tries to start the filler, as group 0", 16, line, RECIPE, START)
        capper.send("the same, as group 1", 13, line, RECIPE, START, group=LINE)

    def evening(self):
        self.scene("The day ends", """All connections are closed. A packet that comes later is refused, and the right that was
            withdrawn stays withdrawn (the second of the words).""")
        late = self.panel.packet(self.recipe, RECIPE, READ)
        for machine in (self.filler, self.checkweigher, self.labeller, self.panel, self.capper):
            self.call("the %s's connection is closed" % machine.name, 0, "close", machine.id)
        self.panel.hand_in("a late packet of the panel", 6, late)
        self.look("the state: nobody is connected")

    def tell(self):
        for scene in (self.morning, self.connections, self.ordinary_command, self.right_withdrawn, self.own_bits,
                      self.talkative_labeller, self.narrowed_twice, self.damaged_packet, self.claimed_twice, self.restart,
                      self.no_group, self.evening):
            scene()
        return {"day.trace": b"".join(self.calls), "day.expect": "".join(self.lines).encode("ascii"),
                "day.txt": "".join(self.account).encode("ascii")}


def main(words):
    folder = words[0] if words else HERE
    with open(os.path.join(HERE, "dairy.book"), "rb") as file:
        day = Day(file.read())
    for name, content in day.tell().items():
        with open(os.path.join(folder, name), "wb") as file:
            file.write(content)
        print("%s: %d bytes" % (name, len(content)))


main(sys.argv[1:])
