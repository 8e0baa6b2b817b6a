"""The part `counting` of checks/sizes: how often memory is asked for, and how many blocks are out at once.

A library that is put before the C library's counts the requests; they are skipped where there is no C compiler (cc),
which is said. Each kind of run is made short and long, and what the long one asks for beyond the short one is compared,
to the digit, with what the model says. What is shared is asked for by nobody:

- Memory is a table of leaves of 16 groups of 16 pages of 256 bytes. A page that is written is asked for where it is
  shared, and so are its group and its leaf.
- A state for undo has a table, a stack and what holds both. A machine has a table, a stack and a list of states.
- A tape has machines as checkpoints. A way back takes a machine from the last one before its place, or from the
  beginning, and makes the steps from there on again, which write again what was written there.
- A list of items that come one by one has room for 4 of them, and then for twice as many each time.
"""
import os
import random
import subprocess

from coding import ADD, ASTORE, ASTOREB, COPY, JLTU, JNZ, MUL, MZERO, PROTECT, RANDOM, RESTOREUNDO, SAVEUNDO, SETRANDOM
from coding import RAM, SIZES, START, TURN, WINDOW, Story, local, word

EVERY, MOST = 1_000_000, 8  # between two checkpoints there are so many units at least, and so many are kept at most
PAGE, GROUP, LEAF = 256, 4096, 65536
STATE, MACHINE = 3, 3

# A library that counts the requests that are answered, and the blocks that are out; at the end it leaves the file
# counted, with the requests and the most blocks that were out at once.
COUNTS = r"""
#define _GNU_SOURCE
#include <dlfcn.h>
#include <fcntl.h>
#include <stdio.h>
#include <stdlib.h>
#include <unistd.h>
static long made, out, most;
static void *given(void *block) {
    if (!block) return block;
    made++;
    if (++out > most) most = out;
    return block;
}
#define REAL(name, type) static type (*real)(); if (!real) real = (type (*)())dlsym(RTLD_NEXT, name)
void *malloc(size_t size) { REAL("malloc", void *); return given(real(size)); }
void *aligned_alloc(size_t align, size_t size) { REAL("aligned_alloc", void *); return given(real(align, size)); }
void *realloc(void *block, size_t size) {
    REAL("realloc", void *);
    void *other = real(block, size);
    if (block && other) out--;
    return given(other);
}
int posix_memalign(void **block, size_t align, size_t size) {
    REAL("posix_memalign", int);
    int fails = real(block, align, size);
    if (!fails) given(*block);
    return fails;
}
void free(void *block) {
    REAL("free", void);
    if (block) out--;
    real(block);
}
__attribute__((destructor)) static void leave(void) {
    char text[64];
    int file = open("counted", O_CREAT | O_TRUNC | O_WRONLY, 0600);
    if (write(file, text, snprintf(text, sizeof text, "%ld %ld", made, most)) < 0) return;
    close(file);
}
"""


# ---- the model

def touched(begin, end):
    """What is asked for where the bytes from `begin` up to `end` are written in a memory that shares all of them."""
    return sum((end - 1) // size - begin // size + 1 for size in (PAGE, GROUP, LEAF)) if begin < end else 0


def grown(count, room=4):
    """How often a list asks, for which there is room for so many items at first, until it has so many."""
    asked = 1
    while room < count:
        room *= 2
        asked += 1
    return asked if count else 0


def densest(spots):
    """The first that has the most of its distance from the newest for each unit between its neighbours."""
    rated = [(spots[-1] - at) * 1024 // (after - before + 1)
             for before, at, after in zip([0] + spots, spots, spots[1:])]
    return rated.index(max(rated))


def checkpoints(units, is_call=lambda at: False):
    """Where a run of so many units takes checkpoints, and which of these it has at its end. One is taken at the first
    call of the machine that begins a million units after the last one, or later: where no call ends there, one step
    more is made. `is_call` tells whether one ends, as it does behind what is drawn or answered."""
    taken, kept, due = [], [], EVERY
    while due + (not is_call(due)) < units:
        taken.append(due + (not is_call(due)))
        kept.append(taken[-1])
        if len(kept) > MOST:
            del kept[densest(kept)]
        due = taken[-1] + EVERY
    return taken, kept


def nearest(kept, target):
    """Where a way back begins: at the last checkpoint before its place, or at the beginning."""
    return max((at for at in kept if at <= target), default=0)


class Writer:
    """A story for a tape that writes one byte more in each turn. What it asks for tells how many of its units are made:
    some hundreds of them to a page."""

    BASE = 0x2_0000

    def __init__(self, turns, turn=lambda story: None, calls=(), notes=0, states=0):
        """In each turn there is also what `turn` does: a call of the machine ends after so many units of it, for each
        of `calls`, and so many notes are taken. At first so many states are kept."""
        self.turns, self.calls = turns, calls
        story = Story(16 * SIZES)
        story.do(SETRANDOM, 0)
        for _ in range(states):
            story.do(SAVEUNDO, local(5))
        story.do(COPY, 0, local(0))
        again = story.label(True)
        self.begun = story.steps
        turn(story)
        story.do(ADD, local(0), 1, local(0))
        story.do(ASTOREB, self.BASE, local(0), 7)
        self.wrote = story.steps
        story.jump(JLTU, again, local(0), turns)
        self.period = story.steps - self.begun
        self.units = self.begun + self.period * turns + 1
        story.quit()
        self.code, self.states = story.bytes(), states
        self.noted = 1 + notes * turns  # the answer to the opening of the window is one
        self.taken, self.kept = checkpoints(self.units, self.is_call)

    def is_call(self, units):
        """Whether a call of the machine ends after so many units, behind what it draws or is answered."""
        return units > self.begun and (units - self.begun) % self.period in self.calls

    def end_of_bytes(self, units):
        """Where the bytes end that are written in so many units; the first stands behind BASE."""
        turns = (units - self.wrote) // self.period + 1
        return self.BASE + 1 + min(max(turns, 0), self.turns)

    def steps_from(self, begin, end):
        """What the units from `begin` up to `end` ask for. Before all turns the window's identifier is written, and
        the states are kept."""
        window = touched(WINDOW, WINDOW + 4) if begin == 0 < end else 0
        states = STATE * self.states if begin == 0 < end else 0
        return window + states + touched(self.end_of_bytes(begin), self.end_of_bytes(end))

    def run(self):
        """What the run asks for. A checkpoint more than may be is taken before one is dropped."""
        edges = [0, *self.taken, self.units]
        lists = grown(min(len(self.taken), MOST + 1)) + grown(self.noted + 1)
        return sum(map(self.steps_from, edges, edges[1:])) + MACHINE * len(self.taken) + lists

    def way_back(self, back):
        """What a way back by so many units asks for."""
        if back == 0:
            return 0
        target = max(0, self.units - back)
        return MACHINE + self.steps_from(nearest(self.kept, target), target)

    def told(self, back):
        """The units and the sum of RAM, the window's identifier in it, that are told after a way back."""
        units = max(0, self.units - back)
        end = self.end_of_bytes(units)
        total = sum((7 << 24 - 8 * i) * len(range(self.BASE + (i or 4), end, 4)) for i in range(4))
        return units, (total + (units > 0)) & 0xFFFFFFFF


def turned(size, rounds, body, written=0):
    """The file of a story of so many rounds, whose memory is first written up to `written`."""
    story = Story(size)
    if written:
        story.fill(1, stride=252, end=written)
    return in_rounds(story, rounds, body).bytes()


def in_rounds(story, rounds, body):
    """Does so many rounds, and quits. `body` may jump to the label that it is handed, which is the round's end."""
    story.do(COPY, 0, word(TURN))
    again, back = story.label(True), story.label()
    body(story, back)
    story.place(back)
    story.do(ADD, word(TURN), 1, word(TURN))
    story.jump(JLTU, again, word(TURN), rounds)
    story.quit()
    return story


def filled(rounds, body, all_filled=False):
    """The same in a memory of 1 MiB whose pages of RAM all have other bytes than zeros, or all its pages: then there is
    no page of zeros to share."""
    story = Story(1 * SIZES, bytes(16) + b"\1" * (1 * SIZES - RAM - 16))
    in_rounds(story, rounds, body)
    if all_filled:
        story.string(b"\1" * (RAM - START - len(story.code) - 8))
    return story.bytes()


# ---- runs, and what they ask for

class Counter:
    """Runs a program with the library before the C library's."""

    def __init__(self, checks, library):
        self.checks, self.library = checks, library

    def run(self, code, *words):
        """The requests, the most blocks, and the last line of a run that ends well."""
        folder = self.checks.folder
        path = os.path.join(folder, "counted")
        if os.path.exists(path):
            os.remove(path)
        with open(os.path.join(folder, "story.ulx"), "wb") as file:
            file.write(code)
        run = subprocess.run([self.checks.program, "story.ulx", *map(str, words)], cwd=folder, timeout=600,
                             stdin=subprocess.DEVNULL, stdout=subprocess.PIPE, stderr=subprocess.PIPE,
                             env=dict(os.environ, LD_PRELOAD=self.library))
        if run.returncode != 0 or not os.path.exists(path):
            return None
        with open(path, encoding="ascii") as file:
            requests, blocks = map(int, file.read().split())
        return requests, blocks, run.stdout[run.stdout[:-1].rfind(b"\n") + 1:]

    def grows(self, name, short, long, requests, blocks, *words):
        """So many requests more, and so many blocks, are those of the long run."""
        few, many = self.run(short, *words), self.run(long, *words)
        if not self.checks.check(few and many, name, "it does not end well where its requests are counted"):
            return
        for what, wanted, less, more in zip(("requests", "blocks"), (requests, blocks), few, many):
            self.checks.check(more - less == wanted, name, f"{more - less} more {what}, and not {wanted}")

    def taped(self, name, writer, runs, *words):
        """Runs of so many turns on a tape, each with its ways back, ask for what the model says beyond one turn."""
        short = writer(1)
        first = self.run(short.code, "--job", "rewind", "--back", 0, *words)
        if not self.checks.check(first, name, "a run of one turn does not end well where its requests are counted"):
            return
        rest = first[0] - short.run() - grown(len(first[2]), 8)
        for turns, backs in runs:
            long = writer(turns)
            for back in backs:
                self.goes_back(f"{name}, {long.units} units, {back} back", long, back, rest, *words)

    def goes_back(self, title, long, back, rest, *words):
        found = self.run(long.code, "--job", "rewind", "--back", back, *words)
        if not self.checks.check(found, title, "it does not end well where its requests are counted"):
            return
        requests, _, line = found
        wanted = rest + long.run() + long.way_back(back) + grown(len(line), 8)
        units, total = long.told(back)
        right = line.split()[::3] == [b"%d" % units, b"%d" % total]
        self.checks.check(right, title, f"{line!r} in the place of {units} units and a sum of {total}")
        self.checks.check(requests == wanted, title, f"{requests} requests, and not {wanted}")


def compiled(library):
    """Makes the library; whether there is a C compiler."""
    words = ["cc", "-shared", "-fPIC", "-w", "-x", "c", "-o", library, "-"]
    try:
        return subprocess.run(words, input=COUNTS.encode(), stderr=subprocess.DEVNULL).returncode == 0
    except OSError:
        return False


def count_requests(checks):
    """The part: memory, states and tapes."""
    library = os.path.join(checks.folder, "counts.so")
    if not compiled(library):
        print("skipped: sizes: requests of memory: there is no C compiler (cc)", flush=True)
        return
    counter = Counter(checks, library)
    count_memory(counter)
    count_states(counter)
    count_tapes(counter)


def resized(size):
    """The file of a story whose memory of 1 MiB gets another size."""
    story = Story(1 * SIZES)
    story.resize(size)
    story.quit()
    return story.bytes()


def counts(story, _back):
    story.do(ADD, local(1), 1, local(1))


def cleared(story, _back):
    """Clears 257 to 510 bytes that lie in two pages of a group, neither of which is cleared whole."""
    story.do(MUL, word(TURN), 0x400, local(1))
    story.do(ADD, local(1), 0x2_0001, local(1))
    story.do(ADD, word(TURN), 257, local(2))
    story.do(MZERO, local(2), local(1))


def cleared_whole(story, _back):
    story.do(MZERO, 0x2000, 0x2_0000)


def count_memory(counter):
    """Memory that begins and grows: nothing is asked for but its table. Memory that is cleared: a table, a leaf, its
    groups, and the pages that are cleared in part; a page of zeros only where there is none, for a whole page."""
    leaves = SIZES // LEAF
    more = grown(256 * leaves) - grown(leaves)
    counter.grows("a memory of 256 MiB to one of 1 MiB", turned(1 * SIZES, 1, counts), turned(256 * SIZES, 1, counts),
                  more, 0)
    more = grown(255 * leaves) - grown(leaves)
    counter.grows("growth to 256 MiB to growth to 2 MiB", resized(2 * SIZES), resized(256 * SIZES), more, 0)
    rounds = 254
    counter.grows("254 clearings of two parts of pages to one", filled(1, cleared), filled(rounds, cleared),
                  (rounds - 1) * 5, 0)
    counter.grows("the same to none, where no page is zeros", filled(1, counts, True), filled(rounds, cleared, True),
                  rounds * 5, 5)
    counter.grows("32 pages that are cleared whole, where none is zeros", filled(1, counts, True),
                  filled(1, cleared_whole, True), 5, 5)


def kept(story, _back):
    story.do(SAVEUNDO, local(5))


def changed(story, _back):
    story.do(SAVEUNDO, local(5))
    story.do(MUL, word(TURN), LEAF, local(1))
    story.do(ASTORE, local(1), RAM // 2, 7)


def gone_back(story, back):
    story.do(PROTECT, RAM + 0x1234, 62 * SIZES + 0x5678)
    story.do(SAVEUNDO, local(5))
    story.jump(JNZ, back, local(5))
    story.do(RESTOREUNDO, local(6))


def count_states(counter):
    """States of 64 MiB, of which every page is written. Behind each of them the page with the turns is written, and so
    asked for with its group and its leaf."""
    size, rounds, page = 64 * SIZES, 63, 3

    def grows(name, body, requests, blocks):
        counter.grows(f"{rounds} {name} to one", turned(size, 1, body, size - 8),
                      turned(size, rounds, body, size - 8), (rounds - 1) * requests, (rounds - 1) * blocks,
                      "--undo", "64")
    grows("states", kept, STATE + page, STATE + page)
    grows("states with a change each", changed, STATE + 2 * page, STATE + 2 * page)
    # The way back has a table, and at each end of the protected range a leaf and a group; the state is let go.
    grows("ways back", gone_back, STATE + 1 + 2 * 2, 0)


def draws(story):
    story.do(RANDOM, 0, local(1))


def asks(story):
    """Asks for gestalt 0, whose answer is noted, and for one that there isn't, which answers nothing."""
    story.glk(4, 0, 0)
    story.glk(4, 0x99, 0)


def count_tapes(counter):
    """Tapes whose checkpoints are all there, or have had to be dropped; of random words, of calls, and with states."""
    turns = 4_000_000
    long = Writer(turns)
    backs = [long.units - at for at in long.kept] + [long.units - at + 1 for at in long.kept[:3]]
    backs += [0, 1, 2 * long.units]
    counter.taped("a tape", Writer, [(300_000, (0, 1)), (340_000, (0, 1, 30_000)), (1_700_000, (0,)), (turns, backs)])
    counter.taped("a tape of random words", lambda turns: Writer(turns, draws, (1,), 1),
                  [(200_000, (0, 1)), (700_000, (0, 1, 1_250_000, 9_000_000))])
    counter.taped("a tape of calls of Glk", lambda turns: Writer(turns, asks, (3, 6), 1),
                  [(50_000, (0, 1)), (220_000, (0, 1, 1_500_000))])
    counter.taped("a tape with 63 states", lambda turns: Writer(turns, states=63),
                  [(1_200_000, (0, 1, 1_500_000, 3_600_000))], "--undo", "64")
    # A tape with as many checkpoints as may be has no block more for a longer run.
    size, turns = 64 * SIZES, 1_100_000
    counter.grows("a tape with all its checkpoints", turned(size, 4 * turns, counts, RAM + 0x1000),
                  turned(size, 19 * turns // 3, counts, RAM + 0x1000), 7 * (MACHINE + 3), 0, "--job", "rewind")
