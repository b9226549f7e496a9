#!/usr/bin/env python3
"""broken.py: listers with one fault each, to see whether compare.py notices.

A lister is a copy of the model in which the fault has changed a limit or a function. As a module it gives each lister by the
fault's name (`compare.py --python broken:NAME`); as a program, `broken.py NAME`, it lists standard input, and then there are
faults of a process too. Without a fault ("faultless") it is the model.
"""
import importlib.util
import os
import signal
import sys
import time

sys.dont_write_bytecode = True
HERE = os.path.dirname(os.path.abspath(__file__))

FAULTS = {}             # name -> lister
PROCESS_FAULTS = {}     # name -> function that gets a faultless lister; it reads, prints and ends


class Lister:
    """Lists a book by a copy of the model that `change` has changed; the copy is made at the first book."""

    def __init__(self, change):
        self.change, self.copy = change, None

    def __call__(self, book):
        if self.copy is None:
            spec = importlib.util.spec_from_file_location("model_with_a_fault", os.path.join(HERE, "model.py"))
            self.copy = importlib.util.module_from_spec(spec)
            spec.loader.exec_module(self.copy)
            self.change(self.copy)
        return self.copy.listing(book)


def named(name, change):
    FAULTS[name] = globals()[name] = Lister(change)
    return FAULTS[name]


def fault(change):
    return named(change.__name__, change)


def process_fault(run):
    PROCESS_FAULTS[run.__name__] = run
    return run


@fault
def faultless(m):
    pass


# ---- limits off by one

def shifted(constant, by):
    return lambda m: setattr(m, constant, getattr(m, constant) + by)


def reach(constant, end, by):
    def change(m):
        limits = list(getattr(m, constant))
        limits[end] += by
        setattr(m, constant, tuple(limits))
    return change


for constant in ("HOSTS_MOST", "INTERFACES_MOST", "ROWS_MOST", "NAME_MOST", "COMMANDS_MOST", "ENTRIES_MOST", "BOOK_MOST"):
    for by, word in ((-1, "less"), (1, "more")):
        named("%s_one_%s" % (constant.lower(), word), shifted(constant, by))
for constant in ("HOST_LENGTHS", "INTERFACE_LENGTHS"):
    for end, which in ((0, "least"), (1, "most")):
        for by, word in ((-1, "less"), (1, "more")):
            named("%s_%s_one_%s" % (constant.lower(), which, word), reach(constant, end, by))


# ---- offsets at the wrong field

def moving(m, moved):
    """Refusals are listed with the offset that `moved` gives for a number and an offset."""
    right = m.list_refused
    m.list_refused = lambda number, offset: right(number, moved(number, offset))


def in_row(offset):
    return (offset - 8) % 12


@fault
def id_shown_at_kind(m):
    moving(m, lambda n, at: at - 2 if n == 43 and in_row(at) == 2 else at)


@fault
def start_shown_at_id(m):
    moving(m, lambda n, at: at - 2 if n == 44 and in_row(at) == 4 else at)


@fault
def length_shown_at_start(m):
    moving(m, lambda n, at: at - 4 if n == 44 and in_row(at) == 8 else at)


@fault
def total_shown_at_0(m):
    moving(m, lambda n, at: 0 if n == 40 else at)


@fault
def rows_shown_at_0(m):
    moving(m, lambda n, at: 0 if n == 42 else at)


@fault
def word_shown_at_its_entry(m):
    moving(m, lambda n, at: at - 2 if n == 46 else at)


@fault
def used_name_shown_at_its_body(m):
    moving(m, lambda n, at: at - 2 if n == 48 else at)


@fault
def letter_shown_at_the_name(m):
    right = m.first_bad_letter
    m.first_bad_letter = lambda name: None if right(name) is None else 0


@fault
def entries_shown_at_commands(m):
    right, asked = m.need, []

    def need(holds, number, offset):
        second = number == 45 and asked and asked[-1] == offset - 2
        asked[:] = [offset] if number == 45 else []
        right(holds, number, offset - 2 if second else offset)
    m.need = need


# ---- words

@fault
def bit_at_the_count_permitted(m):
    m.within = lambda word, commands: word < 1 << commands + 1


@fault
def shift_of_32_bits(m):
    m.within = lambda word, commands: commands == 64 or word < 1 << commands % 32


@fault
def high_half_of_a_word_unseen(m):
    m.within = lambda word, commands: word % 2 ** 32 < 1 << commands


# ---- names

@fault
def names_compared_without_length(m):
    m.used_before = lambda name, earlier: any(all(a == b for a, b in zip(name, other)) for other in earlier)


@fault
def last_byte_of_names_not_compared(m):
    m.used_before = lambda name, earlier: any(len(o) == len(name) and o[:-1] == name[:-1] for o in earlier)


@fault
def names_compared_with_the_one_before(m):
    m.used_before = lambda name, earlier: name in earlier[-1:]


@fault
def names_compared_with_the_first(m):
    m.used_before = lambda name, earlier: name in earlier[:1]


@fault
def names_compared_without_case(m):
    m.used_before = lambda name, earlier: name.lower() in [other.lower() for other in earlier]


@fault
def names_compared_across_kinds(m):
    right, hosts = m.check_interface, []

    def check_host(book, row, earlier, right=m.check_host):
        hosts[:] = earlier
        host = right(book, row, earlier)
        hosts.append(host.name)
        return host
    m.check_host = check_host
    m.check_interface = lambda book, row, earlier: right(book, row, hosts + earlier)


def letters(m, permitted):
    """`permitted` says whether a letter is, from the letter, its place and the name's length."""
    m.first_bad_letter = lambda name: next((k for k, b in enumerate(name) if not permitted(b, k, len(name))), None)


@fault
def space_last_permitted(m):
    letters(m, lambda b, k, n: b in m.LETTERS or b == 32 and k > 0)


@fault
def space_first_permitted(m):
    letters(m, lambda b, k, n: b in m.LETTERS or b == 32 and (k == 0 or k < n - 1))


@fault
def lone_space_permitted(m):
    letters(m, lambda b, k, n: b in m.LETTERS or b == 32 and (n == 1 or 0 < k < n - 1))


@fault
def inner_space_refused(m):
    letters(m, lambda b, k, n: b in m.LETTERS)


@fault
def plus_refused(m):
    m.LETTERS = m.LETTERS - {ord("+")}


@fault
def comma_permitted(m):
    m.LETTERS = m.LETTERS | {ord(",")}


@fault
def high_letters_permitted(m):
    m.LETTERS = m.LETTERS | {letter + 128 for letter in m.LETTERS}


# ---- order. Within one name 47 and 48 never meet: the equal name before it has the same bad letter, and is refused first.

@fault
def start_and_length_before_kind(m):
    def check_row(at, row, before, begins, last, total, right=m.check_row):
        least, most = m.lengths(row.kind)
        ends = row.start + row.length
        m.need(row.start == begins, 44, at + 4)
        m.need(least <= row.length <= most and ends <= total and (not last or ends == total), 44, at + 8)
        right(at, row, before, begins, last, total)
    m.check_row = check_row


@fault
def id_before_kind(m):
    def check_row(at, row, before, begins, last, total, right=m.check_row):
        same = sum(r.kind == row.kind for r in before)
        m.need(row.kind not in (1, 2) or row.id == same + 1, 43, at + 2)
        right(at, row, before, begins, last, total)
    m.check_row = check_row


@fault
def kinds_of_all_rows_first(m):
    def check_rows(book, count, right=m.check_rows):
        hosts = interfaces = 0
        for index in range(count):
            kind = m.u16(book, m.row_at(index))
            m.need(m.may_follow(kind, hosts, interfaces), 43, m.row_at(index))
            hosts, interfaces = hosts + (kind == 1), interfaces + (kind == 2)
        return right(book, count)
    m.check_rows = check_rows


@fault
def bodies_judged_before_the_last_row(m):
    def check_row(at, row, before, begins, last, total, right=m.check_row):
        if last and judged:
            m.check_bodies(judged[0], before)
        right(at, row, before, begins, last, total)

    def check_rows(book, count, right=m.check_rows):
        judged[:] = [book]
        return right(book, count)
    judged = []
    m.check_row, m.check_rows = check_row, check_rows


@fault
def format_before_total(m):
    def check_head(book, right=m.check_head):
        m.need(m.HEAD <= len(book) <= m.BOOK_MOST, 40, 0)
        m.need(m.u16(book, 0) == m.FORMAT, 41, 0)
        return right(book)
    m.check_head = check_head


@fault
def entries_before_commands(m):
    def check_interface(book, row, earlier, right=m.check_interface):
        count = m.u16(book, row.start + 18)
        m.need(1 <= count <= 16 and 1 <= row.length - 20 - 10 * count <= 256, 45, row.start + 18)
        return right(book, row, earlier)
    m.check_interface = check_interface


@fault
def letters_before_words(m):
    def check_interface(book, row, earlier, right=m.check_interface):
        commands, count = m.u16(book, row.start + 16), m.u16(book, row.start + 18)
        at, end = row.start + 20 + 10 * count, row.start + row.length
        if 1 <= commands <= 64 and 1 <= count <= 16 and 1 <= end - at <= 256:
            m.check_name(book[at:end], at, [])
        return right(book, row, earlier)
    m.check_interface = check_interface


# ---- rows

def rereading(m, change):
    """Rows are what `change` makes of them."""
    right = m.Row
    m.Row = lambda *fields: change(right(*fields))


@fault
def high_byte_of_kind_unseen(m):
    rereading(m, lambda row: row._replace(kind=row.kind % 256))


@fault
def high_byte_of_id_unseen(m):
    rereading(m, lambda row: row._replace(id=row.id % 256))


@fault
def high_bytes_of_start_unseen(m):
    rereading(m, lambda row: row._replace(start=row.start % 2 ** 16))


@fault
def high_bytes_of_length_unseen(m):
    rereading(m, lambda row: row._replace(length=row.length % 2 ** 16))


@fault
def last_row_may_end_early(m):
    right = m.check_row
    m.check_row = lambda at, row, before, begins, last, total: right(at, row, before, begins, False, total)


@fault
def first_row_may_be_an_interface(m):
    right = m.may_follow
    m.may_follow = lambda kind, hosts, interfaces: right(kind, max(hosts, 1) if kind == 2 else hosts, interfaces)


@fault
def host_after_an_interface_permitted(m):
    right = m.may_follow
    m.may_follow = lambda kind, hosts, interfaces: right(kind, hosts, 0 if kind == 1 else interfaces)


@fault
def low_bytes_alone(m):
    m.u16 = lambda book, at: book[at]


# ---- the listing

@fault
def refused_book_lists_a_host(m):
    right = m.list_refused
    m.list_refused = lambda number, offset: right(number, offset) + b"host 1 group 0 a\n"


@fault
def refused_book_lists_counts(m):
    right = m.list_refused
    m.list_refused = lambda number, offset: b"hosts 0 interfaces 0\n" + right(number, offset)


@fault
def last_newline_missing(m):
    right = m.listed
    m.listed = lambda verdict, said: right(verdict, said)[:-1]


@fault
def groups_with_a_sign(m):
    right = m.list_contents
    m.list_contents = lambda said: right(said._replace(
        hosts=[h._replace(group=h.group - 65536 * (h.group > 32767)) for h in said.hosts]))


@fault
def last_letter_of_256_missing(m):
    right = m.list_contents
    m.list_contents = lambda said: right(said._replace(hosts=[h._replace(name=h.name[:255]) for h in said.hosts]))


@fault
def eighth_interface_missing(m):
    right = m.list_contents
    m.list_contents = lambda said: right(said._replace(interfaces=said.interfaces[:7]))


@fault
def too_long_taken_for_its_beginning(m):
    right = m.load
    m.load = lambda book: right(book[:12232])


@fault
def nothing_for_no_book(m):
    right = m.listed
    m.load = lambda book, right=m.load: right(book) if book else ((0, 0), None)
    m.listed = lambda verdict, said: b"" if said is None else right(verdict, said)


# ---- faults of a process

def answer(listing):
    os.write(1, listing)


@process_fault
def reads_once(listing):
    answer(listing(os.read(0, 65536)))


@process_fault
def reads_12232_bytes(listing):
    answer(listing(sys.stdin.buffer.read(12232)))


@process_fault
def ends_with_status_3(listing):
    answer(listing(sys.stdin.buffer.read()))
    os._exit(3)


@process_fault
def dies_after_its_answer(listing):
    answer(listing(sys.stdin.buffer.read()))
    os.kill(os.getpid(), signal.SIGABRT)


@process_fault
def never_ends(listing):
    answer(listing(sys.stdin.buffer.read()))
    time.sleep(60)


def main(name):
    if name in PROCESS_FAULTS:
        PROCESS_FAULTS[name](FAULTS["faultless"])
    else:
        answer(FAULTS[name](sys.stdin.buffer.read()))


if __name__ == "__main__":
    main(sys.argv[1])
