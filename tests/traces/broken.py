#!/usr/bin/env python3
"""broken.py: gateways with one fault each, to see whether the comparison of traces notices.

A gateway is a copy of the model in which the fault has changed a function. As a module it gives the faults by name; as a program,
`broken.py NAME`, it replays standard input, and then there are faults of a process too. "faultless" is the model.
"""
import copy
import os
import re
import signal
import sys
import time

sys.dont_write_bytecode = True
import document
import model
import traces

FAULTS = {}             # name -> function that changes a copy of the model
PROCESS_FAULTS = {}     # name -> function that gets the right output; it prints and ends


def with_fault(name):
    """A copy of the model with that fault."""
    made = model.module("model_with_a_fault", "model.py")
    FAULTS[name](made)
    return made


def fault(change):
    FAULTS[change.__name__] = change
    return change


def process_fault(end):
    PROCESS_FAULTS[end.__name__] = end
    return end


@fault
def faultless(m):
    pass


# ---- a refusal that is never given, and two refusals the other way round, for every call

def table_of(m, name):
    return m.SERVER if name in m.SERVER else m.CLIENT


def judged_by(m, name, fresh_need, at_the_end):
    """Within that call a new `need` judges; what the call can't do after a failed check is done by `at_the_end`."""
    table = table_of(m, name)
    right = table[name]

    def perform(*words):
        before, m.need = m.need, fresh_need()
        try:
            return at_the_end(m.need, lambda: right(*words))
        finally:
            m.need = before
    table[name] = perform


def never(name, number):
    """That call never refuses with that number; what it can't handle then, it accepts."""
    def change(m):
        def fresh():
            right = m.need
            return lambda holds, n: right(holds or n == number, n)

        def at_the_end(need, go_on):
            try:
                return go_on()
            except m.Refused:
                raise
            except Exception:
                return m.Accepted(b"", m.FIELDS.get(name, ()))
        judged_by(m, name, fresh, at_the_end)
    return change


class Later:
    """Judges `early` only after `late`, which follows it."""

    def __init__(self, m, early, late):
        self.m, self.early, self.late, self.failed = m, early, late, False

    def __call__(self, holds, number):
        if self.failed:
            raise self.m.Refused(self.late if number == self.late and not holds else self.early)
        if not holds and number != self.early:
            raise self.m.Refused(number)
        self.failed = not holds


def later(name, early, late):
    def change(m):
        def at_the_end(need, go_on):
            try:
                done = go_on()
            except m.Refused:
                raise
            except Exception:
                raise m.Refused(early)
            if need.failed:
                raise m.Refused(early)
            return done
        judged_by(m, name, lambda: Later(m, early, late), at_the_end)
    return change


# Neighbours whose order can't be seen: one excludes the other, or the later can't be judged where the earlier fails.
UNSEEN = {("command", 1, 2), ("command", 8, 9), ("command", 15, 16), ("proof", 26, 27), ("reply", 6, 29), ("open", 1, 2),
          ("open", 8, 11)}

for call, order in document.ORDER.items():
    if call == "load":
        continue
    for one in order:
        FAULTS["%s_never_%d" % (call, one)] = never(call, one)
    for one, other in zip(order, order[1:]):
        if (call, one, other) not in UNSEEN:
            FAULTS["%s_%d_before_%d" % (call, other, one)] = later(call, one, other)


# ---- what is permitted, and the chain of secrets

@fault
def shift_of_32_bits(m):
    m.permitted = lambda command, present, words: all(word >> command % 32 & 1 for word in (present, *words))


@fault
def words_after_the_stop_ignored(m):
    right = m.permitted
    m.permitted = lambda command, present, words: right(command, present, m.chained(words))


@fault
def words_after_the_stop_chained(m):
    m.chained = lambda words: [word for word in words if word != m.ONES]


@fault
def first_word_chained_alone(m):
    right = m.chained
    m.chained = lambda words: right(words)[:1]


@fault
def all_ones_words_chained(m):
    m.chained = lambda words: words


@fault
def present_word_not_asked(m):
    right = m.permitted
    m.permitted = lambda command, present, words: right(command, m.ONES, words)


@fault
def words_not_asked(m):
    right = m.permitted
    m.permitted = lambda command, present, words: right(command, present, ())


@fault
def fourth_word_not_asked(m):
    right = m.permitted
    m.permitted = lambda command, present, words: right(command, present, words[:3])


@fault
def word_in_the_chain_the_other_way_round(m):
    m.step = lambda work, secret, word: work.encipher(secret, word.to_bytes(8, "big") + bytes(8))


@fault
def half_a_word_in_the_chain(m):
    right = m.step
    m.step = lambda work, secret, word: right(work, secret, word % 2 ** 32)


@fault
def low_byte_of_the_id_in_the_first_secret(m):
    right = m.first_secret
    m.first_secret = lambda work, master, id: right(work, master, id % 256)


@fault
def narrowing_in_the_last_place(m):
    right = m.narrow

    def narrow(room, work, data, word):
        done = right(room, work, data, word)
        old = m.take_capability(data)
        place = 3 - old.words[::-1].index(m.ONES)
        words = old.words[:place] + (word,) + old.words[place + 1:]
        return m.Accepted(m.capability_bytes(m.take_capability(done.written)._replace(words=words)))
    m.CLIENT["narrow"] = narrow


# ---- what is remembered

@fault
def verdict_remembered_past_a_revocation(m):
    """What an entry once permitted it permits until its word is loaded anew."""
    def check_inner(state, host, client, inner, carried, work, right=m.check_inner):
        before = m.permitted
        m.permitted = lambda command, present, words: (inner.interface, inner.capability, command) in state.seen \
            or before(command, present, words)
        if not hasattr(state, "seen"):
            state.seen = set()
        try:
            right(state, host, client, inner, carried, work)
        finally:
            m.permitted = before
        state.seen.add((inner.interface, inner.capability, inner.command))
    m.check_inner = check_inner


@fault
def revocation_without_effect(m):
    def revoke(state, room, work, interface, number, word, right=m.revoke):
        return right(state, room, work, interface, number, m.ONES)
    m.SERVER["revoke"] = revoke


@fault
def revocation_gives_rights(m):
    def revoke(state, room, work, interface, number, word, right=m.revoke):
        done = right(state, room, work, interface, number, word)
        face = state.interfaces[interface - 1]
        face.entries[number - 1].word = word & 2 ** face.commands - 1
        return done
    m.SERVER["revoke"] = revoke


@fault
def revocation_of_all_entries(m):
    def revoke(state, room, work, interface, number, word, right=m.revoke):
        done = right(state, room, work, interface, number, word)
        for entry in state.interfaces[interface - 1].in_use():
            entry.word &= word
        return done
    m.SERVER["revoke"] = revoke


@fault
def number_moved_by_a_refused_command(m):
    def check_inner(state, host, client, inner, carried, work, right=m.check_inner):
        try:
            right(state, host, client, inner, carried, work)
        except m.Refused as refused:
            if refused.number > 12:
                host.record = host.record._replace(last=inner.sequence)
            raise
    m.check_inner = check_inner


@fault
def claim_ended_by_a_refused_command(m):
    def check_inner(state, host, client, inner, carried, work, right=m.check_inner):
        try:
            right(state, host, client, inner, carried, work)
        except m.Refused:
            host.record = host.record._replace(owed=False)
            raise
    m.check_inner = check_inner


def after_command(m, change):
    """`change` gets the state, the host and the record of before when a command was accepted."""
    def command(state, room, work, packet, right=m.command):
        host = state.hosts[(m.u16(packet, 0) if len(packet) > 1 else 0) - 1 & 31]
        before = host.record
        done = right(state, room, work, packet)
        change(state, host, before)
        return done
    m.SERVER["command"] = command


@fault
def number_not_moved(m):
    after_command(m, lambda state, host, before: setattr(host, "record", host.record._replace(last=before.last)))


@fault
def number_counted_up(m):
    after_command(m, lambda state, host, before: setattr(host, "record", host.record._replace(last=before.last + 1)))


@fault
def no_reply_owed(m):
    after_command(m, lambda state, host, before: setattr(host, "record", host.record._replace(owed=False)))


@fault
def one_number_for_all_hosts(m):
    def change(state, host, before):
        for other in state.hosts_in_use():
            if isinstance(other.record, m.Open):
                other.record = other.record._replace(last=host.record.last)
    after_command(m, change)


@fault
def reply_owed_forever(m):
    def reply(state, room, work, number, sequence, payload, right=m.reply):
        done = right(state, room, work, number, sequence, payload)
        host = state.hosts[number - 1]
        host.record = host.record._replace(owed=True)
        return done
    m.SERVER["reply"] = reply


@fault
def reply_sets_the_number_back(m):
    def reply(state, room, work, number, sequence, payload, right=m.reply):
        done = right(state, room, work, number, sequence, payload)
        host = state.hosts[number - 1]
        host.record = host.record._replace(last=sequence - 1)
        return done
    m.SERVER["reply"] = reply


@fault
def connection_outlives_a_request(m):
    def request(state, room, work, packet, fresh, right=m.request):
        before = [host.record for host in state.hosts]
        done = right(state, room, work, packet, fresh)
        host = done.fields[0] - 1
        if isinstance(before[host], m.Open):
            state.hosts[host].record = before[host]
        return done
    m.SERVER["request"] = request


@fault
def older_challenge_kept(m):
    def request(state, room, work, packet, fresh, right=m.request):
        before = [host.record for host in state.hosts]
        done = right(state, room, work, packet, fresh)
        host = done.fields[0] - 1
        if isinstance(before[host], m.Waiting):
            state.hosts[host].record = before[host]
        return done
    m.SERVER["request"] = request


@fault
def wrong_proof_ends_the_waiting(m):
    def proof(state, room, work, number, packet, right=m.proof):
        try:
            return right(state, room, work, number, packet)
        except m.Refused as refused:
            if refused.number == 27:
                state.hosts[number - 1].record = m.Idle()
            raise
    m.SERVER["proof"] = proof


@fault
def close_of_open_hosts_alone(m):
    def close(state, room, work, number, right=m.close):
        waits = 1 <= number <= state.host_count and isinstance(state.hosts[number - 1].record, m.Waiting)
        before = state.hosts[number - 1].record if waits else None
        done = right(state, room, work, number)
        if waits:
            state.hosts[number - 1].record = before
        return done
    m.SERVER["close"] = close


@fault
def highest_of_equal_names(m):
    def request(state, room, work, packet, fresh, right=m.request):
        before = [host.record for host in state.hosts]
        done = right(state, room, work, packet, fresh)
        named = [k for k, host in enumerate(state.hosts_in_use()) if host.name() == packet[20:]]
        state.hosts[named[0]].record = before[named[0]]
        state.hosts[named[-1]].record = m.Waiting(fresh)
        return done._replace(fields=(named[-1] + 1,))
    m.SERVER["request"] = request


@fault
def key_and_block_exchanged(m):
    def proof(state, room, work, number, packet, right=m.proof):
        done = right(state, room, work, number, packet)
        state.hosts[number - 1].record = m.Open(m.aes.encrypt(packet[16:], packet[:16]), 0, False)
        return done
    m.SERVER["proof"] = proof


@fault
def slots_are_one(m):
    m.Machine.state = lambda self: self.states[0]


@fault
def refused_load_keeps_the_state(m):
    def load(self, book, right=m.Machine.load):
        before = self.states[self.selected]
        said = right(self, book)
        if self.answer.number:
            self.states[self.selected] = before
        return said
    m.Machine.load = load


# ---- whole gateways that are of no use

def always(m, number, blocks=0):
    def answered(name, room, perform):
        return m.Answer(number, blocks, m.FIELDS.get(name, ()), b"", bytes([traces.ROOM]) * room)
    m.answered = answered


@fault
def refuses_all(m):
    always(m, 39)


@fault
def accepts_all(m):
    always(m, 0)


@fault
def keeps_its_state(m):
    def answering(self, name, fields, right=m.Machine.answering):
        before = copy.deepcopy(self.state())
        said = right(self, name, fields)
        self.states[self.selected] = before
        return said
    m.Machine.answering = answering


# ---- rooms, counts, lines

def changing(m, change):
    """Answers are what `change` makes of a call's name and answer."""
    def answered(name, room, perform, right=m.answered):
        return change(name, right(name, room, perform))
    m.answered = answered


def spoiled(answer):
    return answer._replace(room=bytes(min(1, len(answer.room))) + answer.room[1:])


@fault
def written_though_the_tag_is_wrong(m):
    changing(m, lambda name, answer: spoiled(answer) if answer.number == 8 else answer)


@fault
def written_though_not_permitted(m):
    changing(m, lambda name, answer: spoiled(answer) if answer.number == 18 else answer)


@fault
def written_though_the_secret_is_wrong(m):
    changing(m, lambda name, answer: spoiled(answer) if answer.number == 19 else answer)


@fault
def room_wiped_beyond_what_is_written(m):
    changing(m, lambda name, answer: answer._replace(room=answer.written + bytes(len(answer.room) - len(answer.written)))
             if answer.number == 0 else answer)


@fault
def a_byte_too_many_written(m):
    changing(m, lambda name, answer: answer._replace(room=(answer.written + b"\0" + answer.room)[:len(answer.room)])
             if answer.number == 0 and len(answer.room) == len(answer.written) + 1 else answer)


@fault
def fields_shown_though_refused(m):
    changing(m, lambda name, answer: answer._replace(fields=(1,) + answer.fields[1:])
             if answer.number == 19 and answer.fields else answer)


@fault
def nothing_counted(m):
    changing(m, lambda name, answer: answer._replace(blocks=0))


@fault
def subkey_not_counted(m):
    changing(m, lambda name, answer: answer._replace(blocks=max(0, answer.blocks - 1)) if answer.number == 8 else answer)


@fault
def chain_not_counted(m):
    changing(m, lambda name, answer: answer._replace(blocks=answer.blocks - 1) if answer.number == 19 else answer)


@fault
def whole_blocks_counted(m):
    def change(name, answer):
        part = name == "reply" and answer.number == 0 and (len(answer.written) - 28) % 16 != 0
        return answer._replace(blocks=answer.blocks - 1) if part else answer
    changing(m, change)


@fault
def reply_with_additional_data(m):
    def reply(state, room, work, number, sequence, payload, right=m.reply):
        before = m.gcm.seal
        m.gcm.seal = lambda cipher, vector, additional, plain: before(cipher, vector, vector[:4], plain)
        try:
            return right(state, room, work, number, sequence, payload)
        finally:
            m.gcm.seal = before
    m.SERVER["reply"] = reply


@fault
def open_part_not_authenticated(m):
    def seal(room, work, key, vector, data, client, sequence, group, interface, number, payload, right=m.seal):
        before = m.gcm.seal
        m.gcm.seal = lambda cipher, iv, additional, plain: before(cipher, iv, b"", plain)
        try:
            return right(room, work, key, vector, data, client, sequence, group, interface, number, payload)
        finally:
            m.gcm.seal = before
    m.CLIENT["seal"] = seal


@fault
def reply_vector_without_the_number(m):
    m.reply_vector = lambda sequence: bytes([128]) + bytes(11)


@fault
def sum_of_what_is_written(m):
    right = m.line
    m.line = lambda name, answer: right(name, answer._replace(room=answer.written))


@fault
def capital_digits(m):
    right = m.line
    m.line = lambda name, answer: right(name, answer)[:8] + right(name, answer)[8:].upper()


@fault
def dump_without_the_claim(m):
    right = m.record_word
    m.record_word = lambda record: right(record._replace(owed=False) if isinstance(record, m.Open) else record)


# ---- soundness, clause by clause

def made_good(m, repair):
    """A state is judged after `repair`, which takes one clause's fault away and gives back what puts it in again."""
    def sound(state, right=m.sound):
        back = repair(state)
        try:
            return right(state)
        finally:
            for thing, name, value in back:
                setattr(thing, name, value)
    m.sound = sound


def within(things, name, least, most, repaired=1):
    """Values of these things below `least` or above `most` are repaired."""
    back = [(thing, name, getattr(thing, name)) for thing in things if not least <= getattr(thing, name) <= most]
    for thing, _, _ in back:
        setattr(thing, name, repaired)
    return back


@fault
def host_count_not_judged(m):
    made_good(m, lambda state: within([state], "host_count", 0, 32))


@fault
def interface_count_not_judged(m):
    made_good(m, lambda state: within([state], "interface_count", 0, 8))


@fault
def empty_host_name_sound(m):
    made_good(m, lambda state: within(state.hosts, "length", 1, 10 ** 6))


@fault
def long_host_name_sound(m):
    made_good(m, lambda state: within(state.hosts, "length", 0, 256))


@fault
def interface_name_not_judged(m):
    made_good(m, lambda state: within(state.interfaces, "length", 1, 256))


@fault
def no_commands_sound(m):
    made_good(m, lambda state: within(state.interfaces, "commands", 1, 10 ** 6, 64))


@fault
def too_many_commands_sound(m):
    made_good(m, lambda state: within(state.interfaces, "commands", 0, 64, 64))


@fault
def entry_count_not_judged(m):
    made_good(m, lambda state: within(state.interfaces, "entry_count", 1, 16))


@fault
def words_not_judged(m):
    made_good(m, lambda state: within([entry for face in state.interfaces for entry in face.entries], "word", 0, 0, 0))


@fault
def last_word_not_judged(m):
    made_good(m, lambda state: within([face.entries[min(face.entry_count, 16) - 1] for face in state.interfaces_in_use()],
                                      "word", 0, 0, 0))


@fault
def entries_beyond_the_count_judged(m):
    right = m.sound
    m.sound = lambda state: right(state) and all(entry.word < 1 << min(face.commands, 64) for face in state.interfaces_in_use()
                                                 for entry in face.entries)


@fault
def unsound_without_hosts(m):
    right = m.sound
    m.sound = lambda state: right(state) and state.host_count > 0


# ---- faults of a process

def answer(output):
    sys.stdout.buffer.write(output)
    sys.stdout.buffer.flush()


@process_fault
def one_digit_changed(output):
    """The last digit of the middle line's second word."""
    lines = output.splitlines(True)
    middle = len(lines) // 2
    lines[middle] = re.sub(rb"^(\w+ \d*)(\d)\b", lambda found: found[1] + b"%d" % ((int(found[2]) + 1) % 10), lines[middle])
    answer(b"".join(lines))


@process_fault
def last_line_missing(output):
    answer(b"".join(output.splitlines(True)[:-1]))


@process_fault
def last_newline_missing(output):
    answer(output[:-1])


@process_fault
def a_line_more(output):
    answer(output + b"close 0 0\n")


@process_fault
def two_lines_exchanged(output):
    lines = output.splitlines(True)
    lines[-2:] = lines[:-3:-1]
    answer(b"".join(lines))


@process_fault
def says_nothing(output):
    pass


@process_fault
def ends_with_status_3(output):
    answer(output)
    os._exit(3)


@process_fault
def dies_after_its_answers(output):
    answer(output)
    os.kill(os.getpid(), signal.SIGABRT)


@process_fault
def never_ends(output):
    answer(output)
    time.sleep(60)


def replayed(name):
    lines = with_fault(name).replay(traces.read(sys.stdin.buffer.read()))
    return "".join(line + "\n" for line in lines).encode("ascii")


def main(name):
    if name in PROCESS_FAULTS:
        PROCESS_FAULTS[name](replayed("faultless"))
    else:
        answer(replayed(name))


if __name__ == "__main__":
    main(sys.argv[1])
