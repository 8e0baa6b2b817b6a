"""Runs of the built program for the checks in Python: what a run shows and takes, and what is compared."""
import ctypes
import os
import resource
import subprocess

PR_SET_THP_DISABLE = 41


class Run:
    def __init__(self, made, status, out, err, seconds, peak):
        """`made` is the story and the words that it was made with."""
        self.made, self.status, self.out, self.err, self.seconds, self.peak = made, status, out, err, seconds, peak


def small_pages():
    """From here on the system gives no huge pages, which would count as memory that a run has."""
    ctypes.CDLL(None).prctl(PR_SET_THP_DISABLE, 1, 0, 0, 0)


def measured(words, folder, given):
    """In a process of its own, which is small: what a process has at most is counted from that of its parent on."""
    names = [os.path.join(folder, name) for name in ("input", "output", "remarks")]
    with open(names[0], "wb") as file:
        file.write(given)
    with open(names[0], "rb") as taken, open(names[1], "wb") as out, open(names[2], "wb") as err:
        child = subprocess.Popen(words, cwd=os.path.join(folder, "room"), stdin=taken, stdout=out, stderr=err)
        resource.prlimit(child.pid, resource.RLIMIT_CPU, (60, 60))
        resource.prlimit(child.pid, resource.RLIMIT_AS, (3 << 30, 3 << 30))
        _, status, usage = os.wait4(child.pid, 0)
        child.returncode = os.waitstatus_to_exitcode(status)
    return child.returncode, usage.ru_utime + usage.ru_stime, usage.ru_maxrss / 1024


class Checks:
    def __init__(self, program, folder, pool):
        self.program, self.folder, self.pool = program, folder, pool
        self.room = os.path.join(folder, "room")
        self.passed = self.failed = 0
        os.mkdir(self.room)

    def check(self, right, name, wrong):
        if right:
            self.passed += 1
        else:
            self.failed += 1
            print(f"failed: {name}: {wrong}", flush=True)
        return right

    def run(self, story, *words, given=b""):
        """A run of a story, whose file is made new where it is none yet."""
        if story is not None:
            with open(os.path.join(self.folder, "story.ulx"), "wb") as file:
                file.write(story)
        all_words = [self.program, os.path.join(self.folder, "story.ulx"), *map(str, words)]
        status, seconds, peak = self.pool.apply(measured, (all_words, self.folder, given))
        texts = []
        for name in ("output", "remarks"):
            with open(os.path.join(self.folder, name), "rb") as file:
                texts.append(file.read())
        return Run((story, *words), status, *texts, seconds, peak)

    def same(self, name, run, text, status=0, remark=b""):
        """The status, the first line on standard error (nothing stands there without one) and standard output."""
        line = b"gx_player: " + remark if remark else b""
        said = run.err.partition(b"\n")[0] if remark else run.err
        if run.status != status or said != line:
            return self.check(False, name, f"status {run.status} in the place of {status}: {run.err[:200]!r}")
        wrong = next((i for i, (a, b) in enumerate(zip(run.out, text)) if a != b), min(len(run.out), len(text)))
        where = f"at {wrong}: {run.out[wrong:wrong + 60]!r} in the place of {text[wrong:wrong + 60]!r}"
        return self.check(run.out == text, name, where)

    def plays(self, name, story, *words, given=b"", status=0, remark=b""):
        run = self.run(story.bytes(), *words, given=given)
        self.same(name, run, b"".join(story.text), status, remark)
        return run

    def at_most(self, name, found, most, unit):
        self.check(found <= most, name, f"{found:.2f} {unit}, more than {most:.2f}")

    def in_time(self, name, run, factor, other, more):
        """The processor's time: at most so many times that of another run, and so much more. Where it took longer both
        are made again, up to four times: others may have held one of them up."""
        seconds, least = run.seconds, other.seconds
        for _ in range(4):
            if seconds > factor * least + more:
                seconds, least = min(seconds, self.run(*run.made).seconds), max(least, self.run(*other.made).seconds)
        self.at_most(f"{name}: its time", seconds, factor * least + more, "s")

    def clear_room(self):
        for name in os.listdir(self.room):
            os.remove(os.path.join(self.room, name))

    def took_out(self, file, wanted, name):
        """A file of the room, which is then removed."""
        path = os.path.join(self.room, file)
        try:
            with open(path, "rb") as stored:
                found = stored.read()
            os.remove(path)
        except OSError as error:
            return self.check(False, name, str(error))
        if found == wanted:
            return self.check(True, name, "")
        wrong = next((i for i, (a, b) in enumerate(zip(found, wanted)) if a != b), min(len(found), len(wanted)))
        return self.check(False, name, f"{len(found)} bytes for {len(wanted)}, another one at {wrong}")


def told_alike(checks, name, code, backs, *words):
    """Going back tells the same line as a run that ends there, behind a text that goes on with that run's."""
    first = None
    for back in backs:
        title = f"{name}, {back} back"
        run = checks.run(code, "--job", "rewind", "--back", back, *words)
        first = first or run
        told = run.out[run.out[:-1].rfind(b"\n") + 1:]
        if not checks.check(run.status == 0 and len(told.split()) == 4, title, f"status {run.status}: {run.err!r}"):
            continue
        units = int(told.split()[0])
        shorter = checks.run(None, "--job", "rewind", "--steps", units, *words)
        right = shorter.status == (4 if back else 0) and shorter.out.endswith(told)
        checks.check(right, title, f"{told!r}, and {shorter.out[-60:]!r} after {units} steps")
        text = shorter.out[:len(shorter.out) - len(told)]
        checks.check(run.out.startswith(text), title, f"another text in a run of {units} steps")
        if back:
            checks.in_time(title, run, 1.35, first, 0.1)
    return first
