"""States that nobody loaded: unsound ones, in which every server call is refused with 39, and sound ones."""
from typing import Dict, List, Tuple

import faults
import model
from faults import ACTOR, OTHER, WAITING
from recorder import ONES, Recorder, request_packet

HOST_COUNT, INTERFACE_COUNT, HOST_NAME, INTERFACE_NAME, COMMANDS, ENTRIES, WORD, NAME_OF = range(1, 9)
LAST_HOST, LAST_INTERFACE = len(faults.HOSTS), len(faults.INTERFACES)
LAST_ENTRY = len(faults.INTERFACES[0].entries)

Poke = Tuple[int, int, int, int]

UNSOUND: List[Poke] = [
    *((HOST_COUNT, 0, 0, n) for n in (33, 34, 64, 255)),
    *((INTERFACE_COUNT, 0, 0, n) for n in (9, 10, 255)),
    *((HOST_NAME, i, 0, n) for i in (1, 3, LAST_HOST) for n in (0, 257, 512, 65535)),
    *((INTERFACE_NAME, i, 0, n) for i in (1, LAST_INTERFACE) for n in (0, 257, 512, 65535)),
    *((COMMANDS, i, 0, n) for i in (1, LAST_INTERFACE) for n in (0, 65, 128, 255)),
    (COMMANDS, 1, 0, 63), (COMMANDS, 2, 0, 1), (COMMANDS, 3, 0, 39),           # words have higher bits
    *((ENTRIES, i, 0, n) for i in (1, LAST_INTERFACE) for n in (0, 17, 32, 255)),
    *((WORD, 3, k, 1 << bit) for k in (1, LAST_ENTRY) for bit in (40, 41, 63)),    # interface 3 has 40 commands, interface 2 has 2
    (WORD, 2, 2, 4), (WORD, 2, LAST_ENTRY, ONES),
]

# What lies beyond a count, and is not judged.
UNJUDGED: List[Poke] = [(HOST_NAME, LAST_HOST + 1, 0, 0), (HOST_NAME, 32, 0, 65535), (INTERFACE_NAME, LAST_INTERFACE + 1, 0, 0),
                        (COMMANDS, 8, 0, 255), (ENTRIES, 8, 0, 255), (WORD, 2, LAST_ENTRY + 1, ONES), (WORD, 3, 16, ONES)]


def before(state: model.State, poke: Poke) -> Poke:
    """The poke that takes that one back."""
    what, i, k, _ = poke
    face = state.interfaces[i - 1]
    held: Dict[int, int] = {HOST_COUNT: state.host_count, INTERFACE_COUNT: state.interface_count,
                            HOST_NAME: state.hosts[i - 1].length, INTERFACE_NAME: face.length if i <= 8 else 0,
                            COMMANDS: face.commands, ENTRIES: face.entry_count, WORD: face.entries[k - 1].word}
    return what, i, k, held[what]


def good_calls(r: Recorder) -> List[Tuple]:
    """One call of each kind that the sound state would accept, and one that it would refuse."""
    challenge, ask = r.host(WAITING).record.challenge, r.ask(ACTOR, 1, 1, 3, (), b"payload")
    packet = request_packet(faults.HOSTS[1].name, r.noise(16))
    return [("request", packet, r.noise(16), 40), ("request", b"", b"", 0),
            ("proof", WAITING, challenge + r.noise(16), 30), ("proof", 0, b"", 0),
            ("command", *r.handed(ask)), ("command", b"", 0),
            ("reply", ACTOR, faults.last(r), b"answer", 50), ("reply", 0, 0, b"", 0),
            ("close", OTHER), ("close", 0), ("revoke", 1, 1, 1), ("revoke", 0, 0, 0)]


def unsound(r: Recorder) -> None:
    r.note("unsound states: 39 in every call, and nothing changes")
    faults.prepare(r)
    for poke in UNSOUND:
        back = before(r.state(), poke)
        calls = good_calls(r)
        r.call("poke", *poke)
        for call in calls:
            r.claim(39, "poke %d %d %d %d" % poke, *call)
        r.call("poke", *back)
        r.dump()
    r.note("the client's calls and load don't ask the state")
    r.call("poke", HOST_COUNT, 0, 0, 33)
    for name in ("issue", "narrow", "seal", "open"):
        faults.accept(r, faults.BY_NAME[name])
    faults.prepare(r)


def unjudged(r: Recorder) -> None:
    r.note("what lies beyond a count isn't judged")
    faults.prepare(r)
    for poke in UNJUDGED:
        r.call("poke", *poke)
        r.command(0, "poke %d %d %d %d" % poke, r.ask(ACTOR, 1, 1, 3))
        r.dump()


def fewer_hosts(r: Recorder) -> None:
    r.note("fewer hosts than were loaded")
    faults.prepare(r)
    r.call("poke", HOST_COUNT, 0, 0, 1)
    r.claim(4, "a host beyond the count", "close", OTHER)
    r.claim(23, "its name", "request", request_packet(faults.HOSTS[1].name, r.noise(16)), r.noise(16), 32)
    r.command(4, "its packet", r.ask(OTHER, 1, 1, 3))
    r.command(0, "the host that is left", r.ask(ACTOR, 1, 1, 3))
    r.call("poke", HOST_COUNT, 0, 0, 0)
    r.claim(4, "no host", "close", ACTOR)
    r.claim(0, "interfaces without hosts", "revoke", 1, 1, ONES)
    r.dump()
    r.call("poke", HOST_COUNT, 0, 0, LAST_HOST)
    r.dump()


def fewer_rights(r: Recorder) -> None:
    r.note("fewer interfaces, entries, bits and commands than were loaded")
    faults.prepare(r)
    for number, poke, right in ((14, (INTERFACE_COUNT, 0, 0, 2), (3, 1, 3)), (15, (ENTRIES, 1, 0, 3), (1, 4, 3)),
                                (18, (WORD, 1, 1, 7), (1, 1, 3)), (18, (WORD, 2, 1, 0), (2, 1, 1))):
        back, ask = before(r.state(), poke), r.ask(ACTOR, *right)
        r.call("poke", *poke)
        r.command(number, "poke %d %d %d %d" % poke, ask)
        r.dump()
        r.call("poke", *back)
        r.command(0, "as it was", ask)
    for entry in range(1, LAST_ENTRY + 1):
        r.call("poke", WORD, 3, entry, 31)
    for count in (5, 6, 39):
        r.call("poke", COMMANDS, 3, 0, count)
        r.command(17, "command %d" % count, r.ask(ACTOR, 3, 1, count))
        r.command(0, "command 4", r.ask(ACTOR, 3, 1, 4))


def names(r: Recorder) -> None:
    """Names that repeat, and names that are shorter than they were."""
    r.note("a name that repeats is the lowest host's")
    faults.prepare(r)
    name = faults.HOSTS[OTHER - 1].name
    for poke, host in (((NAME_OF, 4, OTHER, 0), OTHER), ((NAME_OF, ACTOR, OTHER, 0), ACTOR)):
        r.call("poke", *poke)
        answer = r.claim(0, "a name that repeats", "request", request_packet(name, r.noise(16)), r.noise(16), 32)
        assert answer.fields == (host,)
        r.dump()
    r.note("a shorter name")
    faults.prepare(r)
    r.call("poke", HOST_NAME, 3, 0, 255)
    r.claim(23, "the whole name", "request", request_packet(faults.LONG_NAME, r.noise(16)), r.noise(16), 32)
    r.claim(0, "its beginning", "request", request_packet(faults.LONG_NAME[:255], r.noise(16)), r.noise(16), 32)
    r.call("poke", HOST_NAME, 3, 0, 256)
    r.claim(0, "the whole name again", "request", request_packet(faults.LONG_NAME, r.noise(16)), r.noise(16), 32)
    r.dump()


def everything(r: Recorder) -> None:
    unsound(r)
    unjudged(r)
    fewer_hosts(r)
    fewer_rights(r)
    names(r)
