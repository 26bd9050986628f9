"""For the scripts that try the built program: where it is, how it is started, and what the
sequential simulation says about a disk.

The world at a time is what `seq` prints for the model whose end is that time, and a log is the lines
of `seq` whose time is below it. So a disk is judged by the plain runner alone."""
import concurrent.futures
import glob
import os
import re
import subprocess
import threading

HERE = os.path.dirname(os.path.realpath(__file__))
ROOT = os.path.dirname(HERE)


class Wrong(Exception):
    """The program does not behave as expected."""


def program_path():
    """Returns the program that the launcher starts, unless TIMEWARP names another one."""
    given = os.environ.get("TIMEWARP")
    if given:
        return os.path.realpath(given)
    return subprocess.run([f"{ROOT}/tools/program"], stdout=subprocess.PIPE, text=True, check=True).stdout.strip()


def in_memory():
    """Returns a folder for temporary files that is in memory, where a sync takes no time, or None for the usual one. IN_MEMORY names another."""
    return os.environ.get("IN_MEMORY") or ("/dev/shm" if os.access("/dev/shm", os.W_OK) else None)


def start(program, *words, timeout=120, env=None):
    """Returns the status, output and errors of one call of the program."""
    try:
        done = subprocess.run([program, *map(str, words)], capture_output=True, timeout=timeout, env=env,
                              stdin=subprocess.DEVNULL)
    except subprocess.TimeoutExpired:
        raise Wrong(f"it does not end: {' '.join(map(str, words))}")
    return done.returncode, done.stdout, done.stderr


class Lanes:
    """Calls functions in parallel. An exception of one of them ends the script."""

    def __init__(self, workers):
        self.pool = concurrent.futures.ThreadPoolExecutor(workers)
        self.calls = []

    def submit(self, *call):
        self.calls.append(self.pool.submit(*call))

    def __enter__(self):
        return self

    def __exit__(self, kind, value, trace):
        try:
            if kind is None:
                for call in self.calls:
                    call.result()
        finally:
            for call in self.calls:
                call.cancel()
            self.pool.shutdown()


class Judge:
    """Judges disks of one model by what `seq` prints."""

    def __init__(self, program, text, folder, name="model"):
        self.program = program
        self.text = text
        self.folder = folder
        self.name = name
        self.path = f"{folder}/{name}.toml"
        with open(self.path, "w") as file:
            file.write(text)
        self.end = int(re.search(r"(?m)^end\s*=\s*(\d+)", text).group(1))
        self.whole = self.seq(self.path)
        self.lines = self.split(self.whole)[0]
        self.worlds = {}
        self.lock = threading.Lock()

    def seq(self, path):
        status, out, err = start(self.program, "seq", path)
        if status or err:
            raise SystemExit(f"seq has failed: {err.decode()}")
        return out

    @staticmethod
    def split(text):
        """Returns the lines of the log, and the text of the world."""
        at = text.index(b"virtual time ")
        return text[:at].splitlines(True), text[at:]

    def world_at(self, time):
        with self.lock:
            if time not in self.worlds:
                self.worlds[time] = self.world_up_to(time)
            return self.worlds[time]

    def world_up_to(self, time):
        path = f"{self.folder}/{self.name}-to-{time}.toml"
        with open(path, "w") as file:
            file.write(with_end(self.text, max(time, 1)))
        log, world = self.split(self.seq(path))
        os.remove(path)
        if time == 0:
            if log:
                raise SystemExit("the model has events at time 0, which this script cannot judge")
            world = world.replace(b"virtual time 1\n", b"virtual time 0\n", 1)
        return world

    def log_below(self, time):
        return [line for line in self.lines if int(line.split(b" ", 1)[0]) < time]

    def judge(self, log, show, origin=0):
        """Returns the time that `show` prints and the number of events up to there, or None and the fault with
        which both refuse the disk; `log` then prints the lines before the record at fault. Anything but the sequential
        simulation up to that time is wrong. The log of a disk that goes on from another one begins at the time `origin`."""
        if log[0] == 1 and show[0] == 1:
            lines = b"".join(self.lines[len(self.log_below(origin)):])
            for _, out, err in (log, show):
                if not re.fullmatch(rb"timewarp: [A-Za-z ]+\n", err):
                    raise Wrong(f"it refuses the disk, and prints {out!r} and {err!r}")
            if show[1] or not lines.startswith(log[1]) or log[1] and not log[1].endswith(b"\n"):
                raise Wrong(f"it refuses the disk, and prints {log[1]!r} and {show[1]!r}")
            if log[2] != show[2]:
                raise Wrong(f"log prints {log[2]!r} and show prints {show[2]!r}")
            return None, show[2].decode()[len("timewarp: "):-1]
        if log[0] or show[0] or log[2] or show[2]:
            raise Wrong(f"log: {log[0]} {log[2]!r}, show: {show[0]} {show[2]!r}")
        first = re.match(rb"virtual time (\d+)\n", show[1])
        if not first:
            raise Wrong(f"show begins with {show[1][:40]!r}")
        time = int(first.group(1))
        if time > self.end:
            raise Wrong(f"the world of {time} is past the end")
        if show[1] != self.world_at(time):
            raise Wrong(f"the world of {time} is wrong")
        expected = self.log_below(time)
        if log[1] != b"".join(expected[len(self.log_below(origin)):]):
            raise Wrong(f"the log up to {time} is wrong")
        return time, len(expected)

    def look(self, disk):
        """Judges the file of a disk."""
        return self.judge(start(self.program, "log", self.path, disk), start(self.program, "show", self.path, disk))

    def look_with_end(self, disk):
        """Judges the file of a disk, and returns the end in force too."""
        when, detail = self.look(disk)
        return when, detail, 0 if when is None else self.end

    def run_to_end(self, disk, *options):
        """Runs a disk to its end, and compares it with the end of `seq`."""
        status, out, err = start(self.program, "run", self.path, disk, *options)
        if status or err:
            raise Wrong(f"run {' '.join(map(str, options))} prints {err!r} with status {status}")
        log, show = start(self.program, "log", self.path, disk), start(self.program, "show", self.path, disk)
        if log[1] + show[1] != self.whole:
            raise Wrong(f"run {' '.join(map(str, options))} does not end like seq")
        return out


def origin_in(image):
    """Returns the time from which a disk goes on, by its bytes: that of its second record, which has no events, if its first one is
    a checkpoint; 0 if it begins as its model does."""
    def record(gate):
        at = 512 * (gate + 1)
        size = int.from_bytes(image[at + 1:at + 5], "big")
        return (image[at], image[at + 5:at + 5 + size]) if image[at - 512:at - 511] == b"\1" else (0, b"")

    kind, body = record(2)
    if kind != 2:
        return 0
    kind, body = record(3 + (5 + len(body) + 511) // 512)
    return int.from_bytes(body[:8], "big") if kind == 1 and len(body) == 12 and body[8:] == bytes(4) else 0


class Archive(Judge):
    """Judges a disk and the parts beside it that a run has archived: all of them, or if it removes older ones, the newest `keep`."""

    def __init__(self, program, text, folder, name="model", keep=None):
        super().__init__(program, text, folder, name)
        self.keep = keep

    @staticmethod
    def origin_of(disk):
        if not os.path.exists(disk):
            return 0
        with open(disk, "rb") as file:
            return origin_in(file.read())

    @staticmethod
    def parts_of(disk):
        """Returns the paths of the archived parts by their times. A disk that has the name of a part too, is none yet."""
        parts = {}
        for path in sorted(glob.glob(f"{glob.escape(disk)}.{'[0-9]' * 13}")):
            if not os.path.exists(disk) or not os.path.samefile(path, disk):
                parts[int(path[-13:])] = path
        return parts

    def look(self, disk):
        """Judges the file of a disk, or of a part."""
        origin = self.origin_of(disk)
        return self.judge(start(self.program, "log", self.path, disk), start(self.program, "show", self.path, disk), origin)

    def look_with_end(self, disk):
        """Judges a disk and its parts: each goes on from the one before it, and none is missing. Parts that are not removed yet are
        whole too."""
        when, detail = self.look(disk)
        if when is None:
            return when, detail, 0
        parts, before, kept = self.parts_of(disk), self.origin_of(disk), 0
        while before and (self.keep is None or kept < self.keep):
            if before not in parts:
                raise Wrong(f"the disk or a part goes on from {before}, but there is no part up to there, only {sorted(parts)}")
            before, kept = self.look_at_part(parts.pop(before), before), kept + 1
        if parts and self.keep is None:
            raise Wrong(f"the parts {sorted(parts)} are those of no disk")
        for time, path in parts.items():
            self.look_at_part(path, time)
        return when, detail, self.end

    def look_at_part(self, path, time):
        """Judges a part. Returns the time from which it goes on."""
        seen = self.look(path)
        if seen[0] != time:
            raise Wrong(f"the part up to {time} has {seen}")
        return self.origin_of(path)

    def verify(self, disk):
        """Checks that `verify` finds a disk and each part to go on from the part before it, if that is there."""
        parts = self.parts_of(disk)
        for path in [disk, *parts.values()]:
            origin = self.origin_of(path)
            before = ["--after", parts[origin]] if origin in parts else []
            when, events = self.look(path)
            earlier = len(self.log_below(origin))
            expected = b"verified: committed %d events %d\n" % (when, events - earlier)
            if before:
                expected += b"goes on from %d events %d\n" % (origin, earlier)
            elif origin:
                expected += b"from the origin at %d\n" % origin
            result = start(self.program, "verify", self.path, path, *before)
            if result != (0, expected, b""):
                raise Wrong(f"verify ends with {result}, in place of {expected!r}")

    def run_to_end(self, disk, *options):
        """Runs a disk to its end, and compares the disk and its parts with what `seq` prints."""
        words = ["run", self.path, disk, "--archive-when-full", *options]
        status, out, err = start(self.program, *words, *(["--keep", self.keep] if self.keep is not None else []))
        if status or not re.fullmatch(rb"(archived up to \d+, with \d+ events so far\n)*", err):
            raise Wrong(f"run {' '.join(map(str, options))} prints {err!r} with status {status}")
        when, events, _ = self.look_with_end(disk)
        if when != self.end or events != len(self.lines):
            raise Wrong(f"run {' '.join(map(str, options))} ends at {when} with {events} events")
        return out


def with_end(text, end):
    """Returns the text of a model file with another end."""
    return re.sub(r"(?m)^end\s*=\s*\d+", f"end = {end}", text)


class Carried:
    """Judges disks that are extended from each of these ends to the next. Only one model file with one
    of these ends opens such a disk: the one whose end is in force on it."""

    def __init__(self, program, text, folder, name, ends):
        self.judges = [Judge(program, with_end(text, end), folder, f"{name}-of-{end}") for end in ends]
        self.program, self.name, self.path, self.end = program, name, self.judges[0].path, ends[-1]

    def which(self, disk):
        """Returns the judge of the end in force and its result, or None and the fault."""
        results = [(judge, judge.look(disk)) for judge in self.judges]
        found = [each for each in results if each[1][0] is not None]
        if len(found) > 1:
            raise Wrong(f"it opens under the ends {', '.join(str(judge.end) for judge, _ in found)}")
        if found:
            return found[0]
        faults = [fault for _, (_, fault) in results]
        return None, (None, next((fault for fault in faults if fault != "Recovery OtherModel"), faults[0]))

    def look(self, disk):
        return self.which(disk)[1]

    def look_with_end(self, disk):
        judge, result = self.which(disk)
        return *result, judge.end if judge else 0

    def next_after(self, judge):
        return self.judges[self.judges.index(judge) + 1]

    def run_to_end(self, disk, *options):
        """Runs a disk to the end in force, extends it to the next one, and so on up to the last."""
        judge = self.which(disk)[0]
        while True:
            judge.run_to_end(disk, *options)
            if judge.end == self.end:
                return
            later = self.next_after(judge)
            result = start(self.program, "extend", later.path, disk)
            if result != (0, b"extended %d to %d\n" % (judge.end, later.end), b""):
                raise Wrong(f"extend ends with {result}")
            judge = later
