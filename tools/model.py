#!/usr/bin/env python3
"""A model of the program `board`, written from docs/RULES.md alone: a script in, what the board prints out.

A call wakes one node. It works on a twin of the node, which takes the node's place once no refusal is left.
"""
import copy
import os
import sys
from collections import namedtuple

END, WORD, BLOCKS = 1_000_000_000, 1 << 32, 16  # the last global, local and sequence number; a word has 32 bits
SCRIPT_ROOM, WAITING_ROOM, TRAIL_ROOM = 65_536, 64, 512
NO_WORDS = (0, 0, 0, 0)
REQUESTS = ("GETS", "GETX", "UPG", "WB", "Rblk", "Wblk")
FORMS = {  # kinds: from, to, words, has a clock, has a sequence number; NACK goes by the row of what it refuses
    ("GETS", "GETX", "UPG", "WB"): ("processor", "home", 0, False, False),
    ("Rblk",): ("device", "home", 0, True, True),
    ("Wblk",): ("device", "home", 4, True, True),
    ("Rio",): ("processor", "device of the word", 0, True, True),
    ("Wio",): ("processor", "device of the word", 1, True, True),
    ("INT",): ("device", "processor at the place", 1, True, True),
    ("INV", "DOWN"): ("home", "processor", 0, False, False),
    ("ACK",): ("processor", "home", 0, True, False),
    ("S-DATA", "X-DATA"): ("home", "processor", 4, True, False),
    ("GRANT",): ("home", "processor", 0, True, False),
    ("DONE",): ("home", "processor or device", 0, True, False),
    ("WORDS",): ("home", "device", 4, True, False),
    ("VALUE",): ("device of the word", "processor", 1, True, False),
    ("TAKEN",): ("processor or device", "home", 0, False, False),
}
Message = namedtuple("Message", "kind sender receiver place words clock number marked refused")
Entry = namedtuple("Entry", "party number operation space place words stamp")


class Refused(Exception):
    """A refusal: its number and its place."""


class NoRule(Exception):
    """The message has no rule at its receiver."""


def one(word):
    return word, 0, 0, 0


def changed(words, place, word):
    return words[:place] + (word,) + words[place + 1:]


class Device(namedtuple("Device", "operation report words sweep")):
    """The scanner, or the plate setter as its window shows it; word 0 is the command. A sweep: first, count, done."""

    def write(self, place, word):
        words = changed(self.words, place, word)
        if place == 0:
            return self._replace(words=words, sweep=(words[1], words[2], 0) if word == 1 else None)
        return self._replace(words=words)

    def wish(self):
        """The operation, place, processor and words, or none."""
        if self.sweep is None:
            return None
        first, count, done = self.sweep
        if done == count:
            return "INT", 0, self.words[3], one(self.report)
        swept = tuple((self.words[4] + n) % WORD for n in range(4)) if self.operation == "STblk" else NO_WORDS
        return self.operation, (first + done) % WORD, 0, swept

    def accepted(self):
        first, count, done = self.sweep
        return self._replace(sweep=(first, count, done + 1) if done < count else None)


class Node:
    def __init__(self, node, start):
        self.node, self.clock, self.next = node, (start, 0), 0
        self.out = [None] * BLOCKS  # the request out for each block

    def twin(self):
        twin = copy.copy(self)
        for name, value in vars(self).items():
            if isinstance(value, list):
                setattr(twin, name, value[:])
        twin.sent, twin.entries = [], []
        return twin

    def pass_clock(self, clock):
        self.clock = (1 + max(self.clock[0], clock), 0)

    def take_number(self):
        self.next += 1
        return self.next - 1

    def send(self, kind, receiver, place, words=NO_WORDS, clock=0, number=0, marked=False, refused=None):
        self.sent.append(Message(kind, self.node, receiver, place, words, clock, number, marked, refused))

    def enter(self, party, number, operation, space, place, words):
        """Counts an operation and enters it in the trail with the stamp that it then has."""
        self.clock = (self.clock[0], self.clock[1] + 1)
        self.entries.append(Entry(party, number, operation, space, place, words, (*self.clock, self.node)))

    def past_end(self):
        return max(self.clock) > END or self.next > END + 1


class Processor(Node):
    def __init__(self, node, start):
        super().__init__(node, start)
        self.lines = [("I", NO_WORDS)] * BLOCKS
        self.slots = [("free", 0)] * 2  # free, awaited, given up, or come; and the word that came
        self.register = None

    def reach(self, block, states):
        if self.lines[block][0] not in states:
            raise Refused(3, block)
        for device, (slot, _) in enumerate(self.slots):
            if slot in ("awaited", "given up"):
                raise Refused(6, device)
        return self.lines[block][1]

    def load(self, word):
        value = self.reach(word // 4, "SX")[word % 4]
        self.enter(self.node, self.take_number(), "LD", 0, word, one(value))
        return value

    def store(self, word, value):
        self.lines[word // 4] = "X", changed(self.reach(word // 4, "X"), word % 4, value)
        self.enter(self.node, self.take_number(), "ST", 0, word, one(value))

    def request(self, block, kind):
        if self.lines[block][0] != "IISX"[kind - 1]:
            raise Refused(4, block)
        if self.out[block]:
            raise Refused(5, block)
        self.out[block] = REQUESTS[kind - 1]
        self.send(self.out[block], 16 + block, block)

    def ldio(self, device, word):
        if self.slots[device][0] != "free":
            raise Refused(7, device)
        self.slots[device] = "awaited", 0
        self.send("Rio", 4 + device, word, NO_WORDS, self.clock[0], self.take_number())

    def stio(self, device, word, value):
        self.send("Wio", 4 + device, word, one(value), self.clock[0], self.take_number())

    def collect(self, device):
        slot, word = self.slots[device]
        if slot != "come":
            raise Refused(8, device)
        self.slots[device] = "free", 0
        return word

    def give_up(self, device):
        slot = self.slots[device][0]
        if slot not in ("awaited", "come"):
            raise Refused(8, device)
        self.slots[device] = "given up" if slot == "awaited" else "free", 0

    def poll(self):
        word, self.register = self.register, None
        return word

    def receive(self, m):
        (state, words), out = self.lines[m.place], self.out[m.place]
        if m.kind == "INT":
            self.pass_clock(m.clock)
            self.enter(m.sender, m.number, "INT", 3, self.node, m.words)
            self.register = m.words[0]
        elif m.kind == "VALUE" and self.slots[m.sender - 4][0] in ("awaited", "given up"):
            self.pass_clock(m.clock)
            held = self.slots[m.sender - 4][0] == "awaited"
            self.slots[m.sender - 4] = ("come", m.words[0]) if held else ("free", 0)
        elif m.kind == "INV" and state != "I" or m.kind == "DOWN" and state == "X":
            self.pass_clock(self.clock[0])
            self.lines[m.place] = ("I", NO_WORDS) if m.kind == "INV" else ("S", words)
            marked = state == "X"
            self.send("ACK", m.sender, m.place, words if marked else NO_WORDS, self.clock[0], marked=marked)
        elif m.kind == "NACK" and out == m.refused:
            self.out[m.place] = None
        elif (m.kind, out) in (("S-DATA", "GETS"), ("X-DATA", "GETX"), ("DONE", "WB")) \
                or (m.kind, out, state) == ("GRANT", "UPG", "S"):
            self.pass_clock(m.clock)
            if m.kind != "DONE":
                self.lines[m.place] = "S" if m.kind == "S-DATA" else "X", words if m.kind == "GRANT" else m.words
            self.out[m.place] = None
            self.send("TAKEN", m.sender, m.place)
        else:
            raise NoRule


class Home(Node):
    def __init__(self, block, start):
        super().__init__(16 + block, start)
        self.block, self.words = block, NO_WORDS
        self.sharers, self.owned = frozenset(), False  # the directory: if owned, the one sharer is the owner
        self.phase, self.taken, self.awaited, self.heard = "free", None, frozenset(), 0

    def receive(self, m):
        if m.kind in REQUESTS:
            self.request(m)
        elif m.kind == "ACK" and self.phase == "gathering" and m.sender in self.awaited:
            if m.marked:
                self.words = m.words
            self.heard = max(self.heard, m.clock)
            self.awaited -= {m.sender}
            if self.taken.kind not in ("GETS", "Rblk"):
                self.sharers -= {m.sender}
            self.owned = False
            if not self.awaited:
                self.reply()
        elif m.kind == "TAKEN" and self.phase == "replied" and m.sender == self.taken.sender:
            self.phase = "free"
            if m.sender in (4, 5):
                self.pass_clock(self.clock[0])
        else:
            raise NoRule

    def request(self, m):
        holds, asked = m.sender in self.sharers, self.sharers
        if m.kind in ("GETS", "GETX") and holds and self.phase == "free":
            raise NoRule
        if self.phase != "free" or m.kind == "UPG" and (self.owned or not holds) \
                or m.kind == "WB" and not (self.owned and holds):
            self.send("NACK", m.sender, m.place, m.words, m.clock, m.number, refused=m.kind)
            return
        if m.kind == "UPG":
            asked -= {m.sender}
        if m.kind in ("GETS", "Rblk") and not self.owned:
            asked = frozenset()
        self.phase, self.taken, self.awaited, self.heard = "gathering", m, asked, 0
        for processor in sorted(asked):
            self.send("DOWN" if m.kind in ("GETS", "Rblk") else "INV", processor, self.block)
        if not asked:
            self.reply()

    def reply(self):
        m, self.phase = self.taken, "replied"
        self.pass_clock(max(self.heard, m.clock))  # the clock of a processor's request is 0
        if m.kind == "Wblk":
            self.words = m.words
        if m.kind in ("Rblk", "Wblk"):
            self.enter(m.sender, m.number, "LDblk" if m.kind == "Rblk" else "STblk", 0, self.block, self.words)
        if m.kind in ("GETS", "GETX", "UPG"):
            self.sharers, self.owned = self.sharers | {m.sender}, m.kind != "GETS"
        kind = {"GETS": "S-DATA", "GETX": "X-DATA", "UPG": "GRANT", "Rblk": "WORDS"}.get(m.kind, "DONE")
        words = self.words if kind in ("S-DATA", "X-DATA", "WORDS") else NO_WORDS
        self.send(kind, m.sender, self.block, words, self.clock[0])


class Bridge(Node):
    """A device's node. The board's two devices never wish for a load or a store of a word."""

    def __init__(self, number, start, device):
        super().__init__(4 + number, start)
        self.number, self.device = number, device

    def act(self, processors):
        if self.device.wish() is None:
            raise Refused(11, self.number)
        operation, block, processor, words = self.device.wish()
        if processor >= processors if operation == "INT" else block >= BLOCKS:
            raise Refused(12, self.number)
        if any(self.out) if operation == "INT" else self.out[block]:
            raise Refused(13, self.number)
        if operation == "INT":
            self.send("INT", processor, processor, words, self.clock[0], self.take_number())
        else:
            self.out[block] = "Rblk" if operation == "LDblk" else "Wblk"
            self.send(self.out[block], 16 + block, block, words, self.clock[0], self.take_number())
        self.device = self.device.accepted()

    def receive(self, m):
        if m.kind == "Rio":
            self.pass_clock(m.clock)
            word = self.device.words[m.place]
            self.enter(m.sender, m.number, "LDio", 1 + self.number, m.place, one(word))
            self.send("VALUE", m.sender, m.place, one(word), self.clock[0])
        elif m.kind == "Wio":
            self.pass_clock(m.clock)
            self.device = self.device.write(m.place, m.words[0])
            self.enter(m.sender, m.number, "STio", 1 + self.number, m.place, m.words)
        elif (m.kind, self.out[m.place]) in (("WORDS", "Rblk"), ("DONE", "Wblk")):
            self.pass_clock(m.clock)
            self.out[m.place] = None
            self.send("TAKEN", m.sender, m.place)
        elif m.kind == "NACK" and self.out[m.place] == m.refused:
            self.send(m.refused, m.sender, m.place, m.words, self.clock[0], m.number)
        else:
            raise NoRule


CALLS = {  # letter: arguments, and the call
    "L": (("processor", "word"), Processor.load),
    "S": (("processor", "word", "value"), Processor.store),
    "Q": (("processor", "block", "kind"), Processor.request),
    "R": (("processor", "device", "device word"), Processor.ldio),
    "W": (("processor", "device", "device word", "value"), Processor.stio),
    "C": (("processor", "device"), Processor.collect),
    "X": (("processor", "device"), Processor.give_up),
    "D": (("device",), Bridge.act),
    "G": (("waiting",), None),
    "P": (("processor",), Processor.poll),
}


class Board:
    def __init__(self, processors, start):
        self.fit = 1 <= processors <= 4 and start <= END
        self.processors, self.waiting, self.trail = processors if self.fit else 0, [], []
        devices = (Device("LDblk", 1, (0,) * 8, None), Device("STblk", 2, (0,) * 8, None))
        self.nodes = {p: Processor(p, start) for p in range(self.processors)}
        self.nodes.update((4 + d, Bridge(d, start, device)) for d, device in enumerate(devices))
        self.nodes.update((16 + b, Home(b, start)) for b in range(BLOCKS))

    def call(self, letter, arguments):
        """Does a call and gives back its answer, if it has one; or raises the refusal."""
        if not self.fit:
            raise Refused(1, 0)
        names, call = CALLS[letter]
        ends = {"processor": self.processors, "word": 64, "block": BLOCKS, "device": 2, "device word": 8, "kind": 5,
                "value": WORD, "waiting": len(self.waiting)}
        for place, (name, number) in enumerate(zip(names, arguments), 1):
            if number >= ends[name] or (name, number) == ("kind", 0):
                raise Refused(2, place)
        if letter == "G":
            return self.deliver(arguments[0])
        node = self.nodes[arguments[0] + (4 if letter == "D" else 0)].twin()
        answer = call(node, self.processors) if letter == "D" else call(node, *arguments[1:])
        self.settle(node, self.waiting)
        return answer

    def deliver(self, place):
        message = self.waiting[place]
        pair = message.sender, message.receiver
        older = [p for p in range(place) if (self.waiting[p].sender, self.waiting[p].receiver) == pair]
        if older and max(pair) in (4, 5) and min(pair) < 4:
            raise Refused(9, older[0])
        if not self.well_formed(message):
            raise Refused(10, place)
        node = self.nodes[message.receiver].twin()
        try:
            node.receive(message)
        except NoRule:
            raise Refused(10, place) from None
        self.settle(node, self.waiting[:place] + self.waiting[place + 1:])

    def settle(self, node, waiting):
        if len(waiting) + len(node.sent) > WAITING_ROOM:
            raise Refused(14, WAITING_ROOM)
        if len(self.trail) + len(node.entries) > TRAIL_ROOM:
            raise Refused(15, TRAIL_ROOM)
        if node.past_end():
            raise Refused(16, node.node)
        self.nodes[node.node] = node
        self.waiting = waiting + node.sent
        self.trail += node.entries

    def well_formed(self, m):
        kind = m.refused if m.kind == "NACK" else m.kind
        sender, receiver, words, clock, number = next(form for kinds, form in FORMS.items() if kind in kinds)
        if m.kind == "NACK":
            sender, receiver = receiver, sender
        return (self.is_end(m.sender, sender, m.place) and self.is_end(m.receiver, receiver, m.place)
                and not any(m.words[4 if m.marked else words:]) and (not m.marked or m.kind == "ACK")
                and (0 <= m.clock <= END if clock else m.clock == 0)
                and (0 <= m.number <= END if number else m.number == 0)
                and (m.refused in REQUESTS if m.kind == "NACK" else m.refused is None))

    def is_end(self, node, end, place):
        if end == "home":
            return node == 16 + place and place < BLOCKS
        is_processor, is_device = node < self.processors, node in (4, 5)
        return {"processor": is_processor, "device": is_device, "processor or device": is_processor or is_device,
                "processor at the place": is_processor and node == place,
                "device of the word": is_device and place < 8}[end]


def lines_of(script):
    lines = script[:SCRIPT_ROOM].split(b"\n")
    return lines if lines[-1] else lines[:-1]


def fields_of(line):
    """The letter and the numbers of a line, or none if it is not of the form."""
    letter, *fields = line.decode("latin-1").split("\t")
    if not all(field and set(field) <= set("0123456789") for field in fields):
        return None
    digits = [field.lstrip("0") for field in fields]
    numbers = [int(d or "0") if len(d) <= 10 else WORD for d in digits]
    wanted = 2 if letter == "M" else len(CALLS[letter][0]) if letter in CALLS else -1
    return (letter, numbers) if len(numbers) == wanted and max(numbers) < WORD else None


def answer(board, number, line):
    """The board after a line of a script, and what is printed for the line."""
    fields = fields_of(line)
    try:
        if fields is None or (fields[0] == "M") != (number == 1):
            raise Refused(17, number)
        if fields[0] == "M":
            board, value = Board(*fields[1]), None
            if not board.fit:
                raise Refused(1, 0)
        else:
            value = board.call(*fields)
    except Refused as refusal:
        return board, "no\t%d\t%d" % refusal.args
    return board, "ok" if value is None else "ok\t%d" % value


def play(script):
    """What the board prints for a script."""
    board, printed = Board(0, 0), []  # there is no board yet: one that refuses every call
    for number, line in enumerate(lines_of(script), 1):
        board, text = answer(board, number, line)
        printed.append(text)
    for number, entry in enumerate(board.trail):
        printed.append("\t".join(map(str, (number, *entry[:5], entry.words[0], *entry.stamp))))
    printed.append("sum\t%d" % (sum(sum(entry.words) for entry in board.trail) % WORD))
    return "\n".join(printed) + "\n"


def read_script():
    script, piece = b"", b"-"
    while piece and len(script) < SCRIPT_ROOM:
        piece = os.read(0, SCRIPT_ROOM - len(script))
        script += piece
    return script


if __name__ == "__main__":
    sys.stdout.write(play(read_script()))
