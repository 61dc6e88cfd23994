#!/usr/bin/env python3
"""Reads and writes the binary form of a trace: a second reading of docs/FORMATS.md ("Trace 4"), slow and plain.

trace4.py print [FILE]         prints the text that a trace means; a text means itself
trace4.py encode [SEED]        makes a trace 4 of the text on standard input; with a seed its lengths, blocks and records without a meaning are random
trace4.py sizes [FILE]         prints how many bytes, blocks and records of each kind a trace has
trace4.py touched [FILE]       prints the lines whose access touches a part of its word, each with the first and the last byte, from 0 to 3
trace4.py facts [FILE]         prints what a trace says of the function and the memory of each line that is an access, of its threads, and of its locks

It shares no code with the program, nor with the recorder.
"""

import collections
import random
import struct
import sys

sys.dont_write_bytecode = True
import reference

MAGIC = b"\xe5eraser\x04"
BLOCK = struct.Struct("<IIQ")
MOST_BYTES = 1 << 20
MOST = 1 << 30
USUAL_BYTES = 1 << 16
ADDRESS_END = 1 << 48
# By the bits of a tag.
OPERANDS, DISTANCES, NODES, SIZES = (1, 2, 4, 8), (1, 2, 4, 6), (0, 1, 2, 4), (1, 4, 8, None)
(THREAD, NODE, LOCK, UNLOCK, READ_LOCK, READ_UNLOCK, TRY, READ_TRY, FAILED_TRY, FAILED_READ_TRY, SIGNAL, AWAIT, START, JOIN, IGNORE_ON, IGNORE_OFF,
    REUSE, SHOW, LEVEL, SENT, SAW, THREAD_NAME, LOCK_NAME, PLACE, NEW_NODE, NOTE, VARIABLE, FUNCTION, THREAD_FACTS, MEMORY_FACTS, LOST, END) = range(32)
# Which verb a record has in the text, by what it names.
OF_LOCKS = {LOCK: b"lock", UNLOCK: b"unlock", READ_LOCK: b"rlock", READ_UNLOCK: b"runlock", TRY: b"lock", READ_TRY: b"rlock", SIGNAL: b"signal", AWAIT: b"await"}
FAILED = (FAILED_TRY, FAILED_READ_TRY)
OF_THREADS = {START: b"start", JOIN: b"join"}
ALONE = {IGNORE_ON: b"ignore-on", IGNORE_OFF: b"ignore-off"}
IN_HEADER, INLINED = 1, 2
# How many blocks of memory are known to a report at a time.
MOST_BLOCKS = 256


def checksum(number, count, records):
    filled = records + bytes(-len(records) % 8)
    mixed = 0
    for word in (number, len(records) + (count << 32), *struct.unpack(f"<{len(filled) // 8}Q", filled)):
        product = (mixed + word) * 0x9E3779B97F4A7C15 % 2**64
        mixed = product >> 32 | product << 32 & 2**64 - 1
    return mixed


def block(number, count, records):
    """A block, as it stands in the file."""
    return BLOCK.pack(len(records), count, checksum(number, count, records)) + records


# ---- Reading

Event = collections.namedtuple("Event", "thread kind is_write address size operand node")
Node = collections.namedtuple("Node", "caller place flags")
Variable = collections.namedtuple("Variable", "address size name")
ThreadFact = collections.namedtuple("ThreadFact", "created_at name")
LockFact = collections.namedtuple("LockFact", "node is_created")
Block = collections.namedtuple("Block", "line address size place")
Memory = collections.namedtuple("Memory", "name offset size place")


def touches(memory, word):
    """Whether a variable or a block has a byte of the word at an address."""
    return memory.address < word + 4 and word < memory.address + memory.size


class Damage(Exception):
    """A record or a block that no trace has, at this byte, or a file that ends there."""

    def __init__(self, at, says="damaged"):
        super().__init__(f"{says} at byte {at}")


class Trace:
    """What a trace 4 says: its lines of text, its events and its tables. `damage` is its last line, if it is damaged."""

    def __init__(self, data):
        self.data, self.lines, self.events, self.damage = data, [b"eraser trace 3"], [], None
        self.threads, self.locks, self.places, self.nodes = [], [], [], [None]
        self.variables, self.thread_facts, self.lock_addresses, self.lock_facts = [], {}, {}, {}
        self.kinds, self.bytes, self.blocks = collections.Counter(), collections.Counter(), 0
        self.lost, self.has_ended = 0, False
        # By the numbers of lines, the places of the calls that led to their events, the innermost first.
        self.calls = {}
        # By the numbers of lines, the number of the place of their event, and those of the calls.
        self.ways, self.functions, self.got, self.words = {}, {}, [], {}
        # By the numbers of lines, the first and the last byte of the word that their access touches, unless it is all four.
        self.touched = {}
        # The words of the races that a report shows in full, if they are known: no other words' blocks are kept for it.
        self.in_full = None
        try:
            self.read_blocks()
        except Damage as damage:
            self.damage = str(damage).encode()
            self.lines.append(self.damage)

    def text(self):
        return b"".join(line + b"\n" for line in self.lines)

    def read_blocks(self):
        at = len(MAGIC)
        while not self.has_ended:
            at = self.read_block(at)
        if at != len(self.data):
            raise Damage(at)

    def read_block(self, at):
        begin = at + BLOCK.size
        if begin > len(self.data):
            raise Damage(len(self.data), "cut off")
        length, count, mixed = BLOCK.unpack_from(self.data, at)
        if not 1 <= length <= MOST_BYTES:
            raise Damage(at)
        end = begin + length
        if end > len(self.data):
            raise Damage(len(self.data), "cut off")
        if checksum(self.blocks, count, self.data[begin:end]) != mixed:
            raise Damage(at)
        self.blocks += 1
        self.thread, self.node, self.last = None, 0, [0] * 256
        self.at, self.end, found = begin, end, 0
        while self.at < end:
            self.read_record()
            found += 1
        if found != count:
            raise Damage(at)
        return end

    def take(self, count):
        """The next bytes of the record, as many as `count` says."""
        if self.at + count > self.end:
            raise Damage(self.record)
        self.at += count
        return self.data[self.at - count:self.at]

    def number(self, count):
        return int.from_bytes(self.take(count), "little")

    def check(self, is_right):
        if not is_right:
            raise Damage(self.record)

    def named(self, table, number):
        self.check(number < len(table))
        return table[number]

    def read_record(self):
        self.record = self.at
        tag = self.number(1)
        if tag < 128:
            kind = "access"
            self.read_access(tag)
        else:
            kind = (tag - 128) // 4
            self.read_kind(kind, self.number(OPERANDS[tag % 4]))
        self.kinds[kind] += 1
        self.bytes[kind] += self.at - self.record

    def add_event(self, kind, is_write=False, address=None, size=None, operand=None):
        self.check(self.thread is not None)
        self.events.append(Event(self.threads[self.thread], kind, is_write, address, size, operand, self.node))

    def line(self, *words):
        self.lines.append(b" ".join((self.threads[self.thread], *words)))
        self.ways[len(self.lines)] = way = self.way_out(self.node)
        self.calls[str(len(self.lines))] = [self.places[place].decode() for place in way[1:]]

    def way_out(self, node):
        """The numbers of the places from that of a node on: the nearest one outside headers of the system, or the outermost, and those of the calls that led there."""
        while node and self.nodes[node].flags & IN_HEADER and self.nodes[node].caller:
            node = self.nodes[node].caller
        way = []
        while node:
            way.append(self.nodes[node].place)
            node = self.nodes[node].caller
        return way

    def place_of(self, node):
        """The place that is shown for a node, or None."""
        return next((self.places[place] for place in self.way_out(node)), None)

    def site(self):
        """The last word of an access, if it has one."""
        return [self.places[place] for place in self.way_out(self.node)[:1]]

    def stack(self, node):
        """The places of a node and its callers with their flags, the innermost first."""
        while node:
            caller, place, flags = self.nodes[node]
            yield self.places[place], flags
            node = caller

    def read_access(self, tag):
        size = SIZES[tag >> 4 & 3] or self.number(1)
        self.check(1 <= size <= 16)
        distance = int.from_bytes(self.take(DISTANCES[tag >> 2 & 3]), "little", signed=True)
        if tag & 3:
            node = self.number(NODES[tag & 3])
            self.check(node < len(self.nodes))
            self.node = node
        self.check(self.thread is not None)
        slot = self.thread % 256
        address = (self.last[slot] + distance) % ADDRESS_END
        self.last[slot] = address
        self.check(address + size <= ADDRESS_END)
        self.add_event("access", bool(tag & 64), address, size)
        for word in range(address & ~3, address + size, 4):
            self.line(b"write" if tag & 64 else b"read", b"0x%012x" % word, *self.site())
            self.words[len(self.lines)] = word
            part = max(address - word, 0), min(address + size - word, 4) - 1
            if part != (0, 3):
                self.touched[len(self.lines)] = part

    def read_kind(self, kind, operand):
        if kind == THREAD:
            self.named(self.threads, operand)
            self.thread = operand
        elif kind == NODE:
            self.named(self.nodes, operand)
            self.node = operand
        elif kind in OF_LOCKS or kind in FAILED:
            lock = self.named(self.locks, operand)
            self.add_event(kind, operand=lock)
            if kind in OF_LOCKS:
                self.line(OF_LOCKS[kind], lock)
        elif kind in OF_THREADS:
            other = self.named(self.threads, operand)
            self.add_event(kind, operand=other)
            self.line(OF_THREADS[kind], other)
        elif kind in ALONE:
            self.add_event(kind)
            self.line(ALONE[kind])
        elif kind in (REUSE, SHOW, LEVEL, SENT, SAW):
            self.read_other_event(kind, operand)
        elif kind in (THREAD_NAME, LOCK_NAME, PLACE, NOTE, VARIABLE, FUNCTION, THREAD_FACTS, MEMORY_FACTS):
            self.read_bytes(kind, self.take(operand))
        elif kind == NEW_NODE:
            place, flags = self.number(4), self.number(1)
            self.check(operand < len(self.nodes) and place < len(self.places) and flags <= IN_HEADER | INLINED and len(self.nodes) <= MOST)
            self.nodes.append(Node(operand, place, flags))
        elif kind == LOST:
            self.lost = operand
        else:
            self.read_end(operand)

    def read_other_event(self, kind, operand):
        address = self.number(6) if kind == REUSE else operand
        self.check(kind != SHOW or address < ADDRESS_END)
        self.check(kind != LEVEL or operand <= 31)
        self.add_event(kind, address=address, size=operand if kind == REUSE else None)
        if kind == REUSE:
            self.line(b"reuse", b"0x%012x" % address, b"%d" % operand, *self.site())
        elif kind == SHOW:
            self.line(b"show", b"0x%012x" % address)
        elif kind == LEVEL:
            self.line(b"level", b"%d" % operand)

    def add_name(self, table, is_right, name):
        self.check(is_right and len(table) < MOST)
        table.append(name)

    def read_bytes(self, kind, content):
        if kind == THREAD_NAME:
            self.add_name(self.threads, reference.is_name(content), content)
        elif kind == LOCK_NAME:
            self.add_name(self.locks, reference.is_name(content, of_lock=True), content)
        elif kind == PLACE:
            self.add_name(self.places, reference.is_site(content, b"3") and content != b"-", content)
        elif kind == NOTE:
            self.check(len(content) <= 1000 and all(32 <= byte <= 126 for byte in content))
            self.lines.append(b"# " + content)
        else:
            self.read_fact(kind, content)

    def read_fact(self, kind, content):
        """Keeps a fact that has the form of one. Any other says nothing."""
        numbers = [int.from_bytes(content[begin:end], "little") for begin, end in ((0, 4), (4, 8), (4, 10), (0, 6), (6, 12), (12, 16), (10, 14))]
        if kind == VARIABLE and reference.is_site(content[12:], b"3") and numbers[4] and sum(numbers[3:5]) <= ADDRESS_END:
            if not self.variables or numbers[3] >= self.variables[-1].address:
                self.variables.append(Variable(*numbers[3:5], content[12:]))
        elif kind == FUNCTION and numbers[0] < len(self.places) and len(content) > 4 and reference.is_site(content[4:], b"3"):
            self.functions.setdefault(numbers[0], content[4:])
        elif kind == THREAD_FACTS and numbers[0] < len(self.threads) and numbers[1] < len(self.nodes) and (len(content) == 8 or reference.is_site(content[8:], b"3")):
            self.thread_facts[self.threads[numbers[0]]] = ThreadFact(numbers[1], content[8:])
        elif kind == MEMORY_FACTS and len(content) in (10, 14, 15) and numbers[0] < len(self.locks):
            self.lock_addresses[self.locks[numbers[0]]] = numbers[2]
            if len(content) > 10 and 0 < numbers[6] < len(self.nodes):
                self.lock_facts[self.locks[numbers[0]]] = LockFact(numbers[6], len(content) == 14)
        elif kind == MEMORY_FACTS and len(content) == 16 and numbers[4] and sum(numbers[3:5]) <= ADDRESS_END and numbers[5] < len(self.nodes):
            self.got.append(Block(len(self.lines), *numbers[3:5], self.place_of(numbers[5])))

    def variable_at(self, address):
        """What is at an address: the name of a variable, with the byte in it (`table+40`), or None."""
        for variable in self.variables:
            if variable.address <= address < variable.address + variable.size:
                return variable.name + (b"+%d" % (address - variable.address) if address > variable.address else b"")
        return None

    def function_on(self, line):
        """The function of the event on a line, or None."""
        return next((self.functions.get(place) for place in self.ways.get(line, ())), None)

    def functions_of_calls(self, line):
        """The functions of the calls that led to a line, as `calls` has their places."""
        return [self.functions.get(place) for place in self.ways[line][1:]]

    def variable_of(self, word):
        """The first variable that has a byte of the word at an address, or None. Its offset is that of the first such byte."""
        for variable in self.variables:
            if touches(variable, word):
                return Memory(variable.name, max(word - variable.address, 0), variable.size, None)
        return None

    def block_of(self, line, word):
        """The block that the access on a line touched in a word: the last one before it that has a byte of the word, or None."""
        for block in reversed(self.kept(line)):
            if touches(block, word):
                return Memory(b"", max(word - block.address, 0), block.size, block.place)
        return None

    def kept(self, line):
        """The last blocks before a line, without those that lie in a later one."""
        kept = []
        for block in self.got:
            if block.line < line and (self.in_full is None or any(touches(block, word) for word in self.in_full)):
                apart = [old for old in kept if old.address < block.address or old.address + old.size > block.address + block.size]
                kept = [*apart, block][-MOST_BLOCKS:]
        return kept

    def start_of(self, thread):
        """The place of the call that started a thread, or None, and what the program calls it. None if neither is known."""
        fact = self.thread_facts.get(thread)
        return fact and (self.place_of(fact.created_at), fact.name)

    def birth_of(self, lock):
        """The place of the call that created a lock and True, or that of the first call that acquired it and False, or None."""
        fact = self.lock_facts.get(lock)
        return fact and (self.place_of(fact.node), fact.is_created)

    def facts(self):
        for line, word in self.words.items():
            yield line, self.function_on(line), self.variable_of(word) or self.block_of(line, word)
        for thread in self.thread_facts:
            yield thread, *self.start_of(thread)
        for lock in self.lock_facts:
            yield lock, *self.birth_of(lock)

    def read_end(self, count):
        self.check(self.at == self.end and count == len(self.events))
        if self.lost:
            self.lines.append(b"# incomplete: %d events, %d lost" % (count, self.lost))
        self.lines.append(b"end")
        self.has_ended = True


def is_binary(data):
    return data.startswith(MAGIC)


def text_of(data):
    """The text that a trace of any form means."""
    return Trace(data).text() if is_binary(data) else data


# ---- Writing

class Writer:
    """Makes a trace 4. Without dice each number is as short as it may be, and no record is there that says nothing. With `most_calls` each event is reached
    by at most that many calls, which are random. With `facts` and dice there are facts that say something, and others that nearly do. With `words` each
    access touches whole words."""

    def __init__(self, dice=None, most_bytes=USUAL_BYTES, most_calls=0, facts=False, words=False):
        self.dice, self.most_bytes, self.most_calls, self.facts, self.words, self.touched = dice, most_bytes, most_calls, facts, words, set()
        self.blocks, self.whole, self.events = 0, bytearray(MAGIC), 0
        self.threads, self.locks, self.places, self.nodes = {}, {}, {}, {}
        self.begin_block()

    def begin_block(self):
        self.records, self.count, self.thread, self.node, self.last = bytearray(), 0, None, 0, [0] * 256

    def end_block(self):
        if self.count:
            self.whole += block(self.blocks, self.count, bytes(self.records))
            self.blocks += 1
        self.begin_block()

    def chance(self, one_in):
        return self.dice is not None and self.dice.randrange(one_in) == 0

    def length(self, lengths, fits):
        """The place of the shortest length that fits, or of any such one."""
        fitting = [place for place, length in enumerate(lengths) if fits(length)]
        return self.dice.choice(fitting) if self.chance(3) else fitting[0]

    def add(self, record):
        self.records += record
        self.count += 1

    def record(self, kind, operand=0, rest=b""):
        place = self.length(OPERANDS, lambda length: operand < 1 << 8 * length)
        self.add(bytes([128 + 4 * kind + place]) + operand.to_bytes(OPERANDS[place], "little") + rest)

    def name(self, table, kind, name):
        """The number of a name, which is written if it is new."""
        if name not in table:
            self.record(kind, len(name), name)
            table[name] = len(table)
        return table[name]

    def node_of(self, place, caller=0, flags=0):
        """The number of a node, which is written if it is new. No place: 0."""
        if place is None:
            return 0
        key = (caller, self.name(self.places, PLACE, place), flags)
        if key not in self.nodes:
            self.record(NEW_NODE, caller, key[1].to_bytes(4, "little") + bytes([flags]))
            self.nodes[key] = len(self.nodes) + 1
        return self.nodes[key]

    def node_at(self, site):
        """A node whose events have this site in the text. With calls it may be in headers of the system, called from there."""
        if site is None or not self.most_calls:
            return self.node_of(site)
        node = 0
        for _ in range(self.dice.randrange(self.most_calls + 1)):
            node = self.node_of(b"call.cpp:%d" % self.dice.randrange(1, 40), node, self.dice.randrange(4))
        node = self.node_of(site, node, self.dice.choice([0, INLINED]))
        while self.chance(3):
            node = self.node_of(b"/usr/include/header.h:%d" % self.dice.randrange(1, 9), node, IN_HEADER | self.dice.choice([0, INLINED]))
        return node

    def begin_event(self, thread):
        if len(self.records) >= self.most_bytes or self.chance(12):
            self.end_block()
        number = self.name(self.threads, THREAD_NAME, thread)
        if number != self.thread or self.chance(9):
            self.record(THREAD, number)
            self.thread = number
        if self.chance(6):
            self.add_idle()
        if self.facts and (self.events == 0 or self.chance(40)):
            self.add_facts()
        self.events += 1

    def add_idle(self):
        """A record that no text shows."""
        kind = self.dice.choice((FAILED_TRY, FAILED_READ_TRY, SENT, SAW, VARIABLE, FUNCTION, THREAD_FACTS, MEMORY_FACTS, LOST, THREAD_NAME, LOCK_NAME, NODE))
        if kind in (FAILED_TRY, FAILED_READ_TRY, SENT, SAW):
            operand = self.name(self.locks, LOCK_NAME, b"tried") if kind in FAILED else self.dice.randrange(ADDRESS_END)
            self.record(kind, operand)
            self.events += 1
        elif kind in (THREAD_NAME, LOCK_NAME):
            self.name(self.threads if kind == THREAD_NAME else self.locks, kind, b"idle%d" % self.dice.randrange(100))
        elif kind == NODE:
            self.node = self.dice.randrange(len(self.nodes) + 1)
            self.record(NODE, self.node)
        elif kind == LOST:
            self.record(LOST, 7)
        else:
            content = self.dice.randbytes(self.dice.randrange(40))
            self.record(kind, len(content), content)

    def fact(self, kind, *numbers, names=(b"stats", b"Pool::take", b"main::{lambda}", b"f::x.guard", b"a", b"", b"no name", b"x" * 128, b"x" * 129)):
        """A fact with these numbers, each with how many bytes it has, and one of the names, of which some are none."""
        if len(self.records) >= self.most_bytes:
            thread = self.thread
            self.end_block()
            if thread is not None:
                self.record(THREAD, thread)
                self.thread = thread
        content = b"".join(number.to_bytes(size, "little") for number, size in numbers) + self.dice.choice(names)
        content = content[:self.dice.randrange(len(content))] if self.chance(12) else content
        self.record(kind, len(content), content)

    def add_facts(self):
        """Facts of memory, and of the places, threads and locks so far and the next ones."""
        self.add_blocks()
        for place in range(len(self.places) + 1):
            for _ in range(self.dice.randrange(3)):
                self.fact(FUNCTION, (place, 4))
        for thread in range(len(self.threads) + 1):
            self.fact(THREAD_FACTS, (thread, 4), (self.dice.randrange(len(self.nodes) + 2), 4))
        # With two bytes more they are blocks.
        for lock in range(len(self.locks) + 1):
            self.fact(MEMORY_FACTS, (lock, 4), (0x1000 + 8 * lock, 6), (self.dice.randrange(len(self.nodes) + 2), 4), names=(b"", b"", b"\0", b"x", b"xx", b"xxx"))

    def add_blocks(self):
        """Blocks of memory near the words of random traces. Some lie in others, and some facts lack a byte, a node or an end within memory."""
        for _ in range(self.dice.randrange(5)):
            address = self.dice.choice((0xff0, 0x1000, 0x1002, 0x1ff8, 0x2000, ADDRESS_END - 20, *self.touched))
            node = self.dice.choice((0, self.node_of(b"new.c:5"), self.dice.randrange(len(self.nodes) + 2), len(self.nodes) + 1))
            self.fact(MEMORY_FACTS, (address, 6), (self.dice.randrange(40), 6), (node, 4), names=(*[b""] * 8, b"x"))

    def add_variables(self):
        """Variables of the words so far. Some share words, and some lie below the one before."""
        for address in sorted(self.touched):
            if self.chance(2):
                self.fact(VARIABLE, (max(address - self.dice.randrange(12), 0), 6), (self.dice.randrange(20), 6))

    def at_node(self, node):
        if node != self.node or self.chance(9):
            self.record(NODE, node)
            self.node = node

    def access(self, thread, is_write, address, size, node=0):
        self.begin_event(thread)
        slot = self.thread % 256
        distance = (address - self.last[slot]) % ADDRESS_END
        distance -= ADDRESS_END if distance >= ADDRESS_END // 2 else 0
        tag = 64 if is_write else 0
        size_place = SIZES.index(size) if size in SIZES and not self.chance(4) else 3
        distance_place = self.length(DISTANCES, lambda length: -1 << 8 * length - 1 <= distance < 1 << 8 * length - 1)
        node_place = self.length(NODES, lambda length: node < 1 << 8 * length if length else node == self.node)
        self.add(bytes([tag | size_place << 4 | distance_place << 2 | node_place]) + (bytes([size]) if size_place == 3 else b"")
            + distance.to_bytes(DISTANCES[distance_place], "little", signed=True) + (node.to_bytes(NODES[node_place], "little") if node_place else b""))
        self.last[slot], self.node = address, node
        self.touched.add(address)

    def of_lock(self, thread, kind, lock, node=0):
        self.begin_event(thread)
        number = self.name(self.locks, LOCK_NAME, lock)
        self.at_node(node)
        self.record(kind, number)

    def of_thread(self, thread, kind, other, node=0):
        self.begin_event(thread)
        number = self.name(self.threads, THREAD_NAME, other)
        self.at_node(node)
        self.record(kind, number)

    def reuse(self, thread, address, size, node=0):
        self.begin_event(thread)
        self.at_node(node)
        self.record(REUSE, size, address.to_bytes(6, "little"))

    def other(self, thread, kind, operand=0):
        self.begin_event(thread)
        self.record(kind, operand)

    def note(self, content):
        self.record(NOTE, len(content), content)

    def finish(self, lost=0):
        """The whole trace."""
        if self.facts:
            self.add_facts()
            self.add_variables()
        if lost or self.dice is not None:
            self.record(LOST, lost)
        self.record(END, self.events)
        self.end_block()
        return bytes(self.whole)


# ---- Texts

KINDS = {verb: kind for table in (ALONE, OF_THREADS) for kind, verb in table.items()} | {
    verb: kind for kind, verb in OF_LOCKS.items() if kind not in (TRY, READ_TRY)}
TRIES = {LOCK: TRY, READ_LOCK: READ_TRY}


def note_of(line):
    """What a note says to be this line of a text, or None."""
    is_note = line.startswith(b"# ") and len(line) <= 1002 and all(32 <= byte <= 126 for byte in line)
    return line[2:] if is_note else None


def parts_of(text):
    """The events of a text without a fault, and its notes, in the order of the text."""
    events = dict(reference.events_of(text))
    for at, line in enumerate(text.split(b"\n"), 1):
        if at in events:
            yield events[at]
        elif note_of(line) is not None:
            yield note_of(line)


def site_in(words):
    return words[0] if words and words[0] != b"-" else None


def plain(text, events=0, lost=0):
    """The text 3 that means what a text means, as a trace 4 of `events` events can say it: without blank lines, and with every word as in the formats."""
    lines = [b"eraser trace 3"]
    for part in parts_of(text):
        if isinstance(part, bytes):
            lines.append(b"# " + part)
            continue
        thread, verb, operands = part
        words = list(operands)
        if verb in (b"read", b"write", b"show", b"reuse"):
            address = reference.number(words[0])
            words[0] = b"0x%012x" % (address if verb in (b"show", b"reuse") else address & ~3)
        if verb in (b"reuse", b"level"):
            words[-1 if verb == b"level" else 1] = b"%d" % reference.number(words[-1 if verb == b"level" else 1])
        if words and verb in (b"read", b"write", b"reuse") and words[-1] == b"-":
            words.pop()
        lines.append(b" ".join([thread, verb, *words]))
    lines += [b"# incomplete: %d events, %d lost" % (events, lost)] * (lost > 0) + [b"end"]
    return b"".join(line + b"\n" for line in lines)


def joined(parts, dice, longest=5):
    """Accesses of one thread at one place, of words one behind the other, as accesses of several words. With dice only some of them, and at most so many words."""
    run = []
    for part in [*parts, None]:
        is_access = isinstance(part, tuple) and part[1] in (b"read", b"write")
        word = reference.number(part[2][0]) & ~3 if is_access else None
        key = (part[0], part[1], site_in(part[2][1:])) if is_access else None
        most = 4 if dice is None else dice.randrange(1, longest + 1)
        if run and (key != run[0][0] or word != run[-1][1] + 4 or len(run) >= most):
            yield run
            run = []
        if is_access:
            run.append((key, word))
        elif part is not None:
            yield part


def encode(text, dice=None, lost=0, **more):
    """A trace 4 that means `plain` of the text."""
    writer = Writer(dice, **more)
    for part in joined(parts_of(text), dice, 4 if writer.words else 5):
        if isinstance(part, bytes):
            writer.note(part)
        elif isinstance(part, list):
            write_access(writer, part)
        else:
            write_event(writer, *part)
    return writer.finish(lost)


def encode_touching(text, touched):
    """A trace 4 that means a text whose lines touch these parts of their words, each from a first to a last byte, and all other lines whole words."""
    writer = Writer()
    for line, (thread, verb, operands) in reference.events_of(text):
        if verb in (b"read", b"write"):
            first, last = touched.get(line, (0, 3))
            writer.access(thread, verb == b"write", reference.number(operands[0]) + first, last - first + 1, writer.node_at(site_in(operands[1:])))
        else:
            write_event(writer, thread, verb, operands)
    return writer.finish()


def write_access(writer, run):
    """An access that touches the words of a run, and all its bytes or some."""
    (thread, verb, site), first = run[0]
    end = run[-1][1] + 4
    if not writer.words and writer.chance(2):
        first += writer.dice.randrange(4)
        end = writer.dice.randrange(max(first + 1, end - 3), end + 1)
    if end - first > 16:
        end = first + 16
    if end <= run[-1][1]:
        # 16 bytes touch five words if they don't begin with the first byte of a word.
        first, end = run[0][1] + 3, run[0][1] + 19
    writer.access(thread, verb == b"write", first, end - first, writer.node_at(site))


def write_event(writer, thread, verb, operands):
    if verb in (b"start", b"join"):
        writer.of_thread(thread, KINDS[verb], operands[0])
    elif verb in (b"show", b"level"):
        writer.other(thread, SHOW if verb == b"show" else LEVEL, reference.number(operands[0]))
    elif verb == b"reuse":
        writer.reuse(thread, *map(reference.number, operands[:2]), writer.node_at(site_in(operands[2:])))
    elif verb in (b"ignore-on", b"ignore-off"):
        writer.other(thread, KINDS[verb])
    else:
        kind = KINDS[verb]
        writer.of_lock(thread, TRIES.get(kind, kind) if writer.chance(3) else kind, operands[0])


# ---- By itself

def print_sizes(data):
    trace = Trace(data)
    print(f"{len(data)} bytes, {trace.blocks} blocks, {len(trace.events)} events, {len(trace.text())} bytes as text")
    for kind, count in sorted(trace.kinds.items(), key=lambda pair: -trace.bytes[pair[0]]):
        print(f"{kind}: {count} records, {trace.bytes[kind]} bytes")


def main():
    verb, *rest = sys.argv[1:]
    if verb == "encode":
        sys.stdout.buffer.write(encode(sys.stdin.buffer.read(), random.Random(rest[0]) if rest else None))
        return
    data = open(rest[0], "rb").read() if rest else sys.stdin.buffer.read()
    if verb == "sizes":
        print_sizes(data)
    elif verb == "touched":
        for line, (first, last) in Trace(data).touched.items():
            print(line, first, last)
    elif verb == "facts":
        for fact in Trace(data).facts():
            print(*fact)
    else:
        sys.stdout.buffer.write(text_of(data))


if __name__ == "__main__":
    main()
