"""Stories for the checks in Python, made instruction by instruction. A story has, beside its code, what its memory and
its text come to.
"""
import array
import struct

START, RAM, SIZES = 0x24, 0x10000, 1 << 20
WORDS = RAM + 0x100  # before it stand words that a story counts with, from it on what is filled and summed up
BEGUN, COUNT, TURN, WINDOW, EVENT, FILE, STREAM = RAM, RAM + 4, RAM + 8, RAM + 12, RAM + 16, RAM + 32, RAM + 36
STACKED, ZERO = (8, b""), (0, b"")
MULTIPLIER, ADDEND, FACTOR = 1103515245, 12345, 31
FINE, COARSE = 44, 92  # the bytes from one word to the next where memory is filled or summed up
DATA, SAVE, WRITE, READ = 0, 1, 1, 2

JUMP, JNZ, JLT, JLTU = 0x20, 0x23, 0x26, 0x2A
ADD, SUB, MUL, MOD, AND = 0x10, 0x11, 0x12, 0x14, 0x18
COPY, ALOAD, ALOADB, ASTORE, ASTOREB = 0x40, 0x48, 0x4A, 0x4C, 0x4E
STKROLL, STKCOPY = 0x53, 0x54
STREAMCHAR, STREAMNUM, GETMEMSIZE, SETMEMSIZE, QUIT, RESTART = 0x70, 0x71, 0x102, 0x103, 0x120, 0x122
SAVE_TO, RESTORE_FROM, SAVEUNDO, RESTOREUNDO, PROTECT = 0x123, 0x124, 0x125, 0x126, 0x127
GLK, SETRANDOM, RANDOM, SETIOSYS, MZERO, MCOPY, MALLOC, MFREE = 0x130, 0x111, 0x110, 0x149, 0x170, 0x171, 0x178, 0x179


# ---- instructions and their operands

def constant(value):
    return (3, struct.pack(">I", value & 0xFFFFFFFF))


def local(index):
    return (9, bytes([4 * index]))


def word(at):
    return (7, struct.pack(">I", at))


def operand(value):
    return constant(value) if isinstance(value, int) else value


def instruction(number, *operands):
    code = bytes([number]) if number < 0x80 else struct.pack(">H", 0x8000 + number)
    modes = [mode for mode, _ in operands] + [0] * (len(operands) % 2)
    nibbles = bytes(modes[i] | modes[i + 1] << 4 for i in range(0, len(modes), 2))
    return code + nibbles + b"".join(data for _, data in operands)


def signed(value):
    return (value + 2 ** 31) % 2 ** 32 - 2 ** 31


class Story:
    """A story's code, and beside it what memory and the text come to where that code is run from its begin to its end.

    The code is in ROM; memory begins with `data`, which stands from RAM on.
    """

    def __init__(self, size, data=b"", stack=0x1000):
        self.size, self.data, self.stack = size, data, stack
        self.code, self.labels, self.jumps, self.strings, self.steps = bytearray(), [], [], b"", 0
        self.memory, self.text = bytearray(size), []
        self.begin_memory()
        self.do(SETIOSYS, 2, ZERO)
        self.begun_again = self.label()
        self.jump(JNZ, self.begun_again, word(BEGUN))
        self.glk(0x23, 0, 0, 0, 3, 0, to=word(WINDOW))
        self.glk(0x2F, word(WINDOW))

    def begin_memory(self):
        self.memory = bytearray(self.size)
        self.memory[RAM:RAM + len(self.data)] = self.data

    # code

    def do(self, number, *operands):
        self.steps += 1
        self.code += instruction(number, *(operand(value) for value in operands))

    def label(self, placed=False):
        self.labels.append(len(self.code) if placed else None)
        return len(self.labels) - 1

    def place(self, label):
        self.labels[label] = len(self.code)

    def jump(self, number, label, *operands):
        self.do(number, *operands, 0)
        self.jumps.append((len(self.code), label))

    def glk(self, selector, *arguments, to=ZERO):
        for value in reversed(arguments):
            self.do(COPY, value, STACKED)
        self.do(GLK, selector, len(arguments), to)

    def string(self, text):
        """The address of a string of ROM."""
        self.strings = b"\xE0" + text + b"\0" + self.strings
        return RAM - len(self.strings)

    def bytes(self):
        """The file."""
        code = bytearray(self.code)
        if self.labels[self.begun_again] is None:
            self.place(self.begun_again)
        for end, label in self.jumps:
            code[end - 4:end] = struct.pack(">i", self.labels[label] - end + 2)
        stored = -(-(RAM + len(self.data)) // 256) * 256
        image = bytearray(stored)
        image[:36] = b"Glul" + struct.pack(">8I", 0x00030102, RAM, stored, self.size, self.stack, START, 0, 0)
        body = b"\xC1\x04\x08\0\0" + code
        assert START + len(body) + len(self.strings) <= RAM
        image[START:START + len(body)] = body
        image[RAM - len(self.strings):RAM] = self.strings
        image[RAM:RAM + len(self.data)] = self.data
        image[32:36] = struct.pack(">I", sum(struct.unpack(f">{stored // 4}I", image)) & 0xFFFFFFFF)
        return bytes(image)

    # what is shown

    def tell(self, value, wanted):
        """Shows a number."""
        self.do(STREAMNUM, value)
        self.do(STREAMCHAR, 10)
        self.text.append(f"{signed(wanted)}\n".encode())

    def tell_sum(self, begin=WORDS, end=None, stride=COARSE):
        """Shows a sum of words of memory, in which each place counts with another factor."""
        end = end or len(self.memory) - 3
        self.do(COPY, begin, local(0))
        self.do(COPY, 0, local(1))
        again = self.label(True)
        self.do(ALOAD, local(0), 0, local(2))
        self.do(MUL, local(1), FACTOR, local(1))
        self.do(ADD, local(1), local(2), local(1))
        self.do(ADD, local(0), stride, local(0))
        self.jump(JLTU, again, local(0), end)
        self.tell(local(1), self.sum_of(begin, end, stride))

    def sum_of(self, begin, end, stride):
        total = 0
        if begin % 4 == 0 and stride % 4 == 0:
            words = array.array("I", self.memory[begin:end + 3 & -4])
            words.byteswap()
            for value in words[::stride // 4]:
                total = (total * FACTOR + value) & 0xFFFFFFFF
            return total
        for at in range(begin, end, stride):
            total = (total * FACTOR + int.from_bytes(self.memory[at:at + 4], "big")) & 0xFFFFFFFF
        return total

    # what is written

    def fill(self, seed, begin=WORDS, end=None, stride=COARSE):
        """Writes a word at each so many bytes."""
        end = end or len(self.memory) - 3
        self.do(COPY, begin, local(0))
        self.do(COPY, seed, local(1))
        again = self.label(True)
        self.do(MUL, local(1), MULTIPLIER, local(1))
        self.do(ADD, local(1), ADDEND, local(1))
        self.do(ASTORE, local(0), 0, local(1))
        self.do(ADD, local(0), stride, local(0))
        self.jump(JLTU, again, local(0), end)
        count, value, values = len(range(begin, end, stride)), seed, array.array("I")
        for _ in range(count):
            value = (value * MULTIPLIER + ADDEND) & 0xFFFFFFFF
            values.append(value)
        values.byteswap()
        stored = values.tobytes()
        assert stride >= 4 and begin + stride * (count - 1) + 4 <= len(self.memory)
        for byte in range(4):
            self.memory[begin + byte:begin + stride * (count - 1) + byte + 1:stride] = stored[byte::4]

    def clear(self, at, count):
        assert at + count <= len(self.memory)
        self.do(MZERO, count, at)
        self.memory[at:at + count] = bytes(count)

    def move(self, start, to, count):
        assert max(start, to) + count <= len(self.memory)
        self.do(MCOPY, count, start, to)
        self.memory[to:to + count] = self.memory[start:start + count]

    def put(self, at, value):
        self.do(COPY, value, word(at))
        self.memory[at:at + 4] = struct.pack(">I", value & 0xFFFFFFFF)

    def resize(self, size):
        self.do(SETMEMSIZE, size, local(4))
        self.tell(local(4), 0)
        self.memory = self.memory[:size] + bytes(max(0, size - len(self.memory)))

    def tell_size(self):
        self.do(GETMEMSIZE, local(4))
        self.tell(local(4), len(self.memory))

    # back to an earlier memory

    def put_back(self, kept, at, count):
        """What comes back but for a protected range, where that lies in memory now and then."""
        present, self.memory = self.memory, bytearray(kept)
        end = min(at + count, len(kept), len(present))
        if at < end:
            self.memory[at:end] = present[at:end]

    def undone(self, at, count, change):
        """Keeps a state, makes a change, and goes back but for a protected range."""
        back = self.label()
        self.do(PROTECT, at, count)
        self.do(SAVEUNDO, local(5))
        kept = bytes(self.memory)
        self.jump(JNZ, back, local(5))
        change()
        self.do(RESTOREUNDO, local(6))
        self.do(STREAMCHAR, ord("F"))
        self.do(QUIT)
        self.place(back)
        self.put_back(kept, at, count)
        self.tell(local(5), -1)

    def open(self, name, usage, mode):
        self.glk(0x61, usage, name, 0, to=word(FILE))
        self.glk(0x42, word(FILE), mode, 0, to=word(STREAM))

    def close(self):
        self.glk(0x44, word(STREAM), 0)

    def saved(self, at, count, change):
        """The same with a save in a file."""
        back, name = self.label(), self.string(b"kept")
        self.do(PROTECT, at, count)
        self.open(name, SAVE, WRITE)
        self.do(SAVE_TO, word(STREAM), local(5))
        kept = bytes(self.memory)
        self.jump(JNZ, back, local(5))
        self.close()
        change()
        self.open(name, SAVE, READ)
        self.do(RESTORE_FROM, word(STREAM), local(6))
        self.do(STREAMCHAR, ord("F"))
        self.do(QUIT)
        self.place(back)
        self.put_back(kept, at, count)
        self.tell(local(5), -1)

    def stored(self, begin):
        """Stores memory from an address on in the file all.glkdata."""
        self.open(self.string(b"all"), DATA, WRITE)
        self.glk(0x85, word(STREAM), begin, len(self.memory) - begin)
        self.close()

    def quit(self):
        self.do(QUIT)


def rows_of(text, columns):
    """The rows of a text of letters of one column."""
    rows = []
    for rest in text.split("\n")[-255:]:
        while len(rest) > columns:
            blank = rest.rfind(" ", 0, columns)
            if rest[columns] == " ":
                rows.append(rest[:columns])
                rest = rest[columns + 1:]
            elif blank >= 0:
                rows.append(rest[:blank])
                rest = rest[blank + 1:]
            else:
                rows.append(rest[:columns])
                rest = rest[columns:]
        rows.append(rest)
    return rows
