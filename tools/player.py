"""Plays the scripts of scripts/, whose README says how one is written: runs each command, and compares what it prints with what
the script says."""
import difflib
import os
import shutil
import signal
import subprocess
import sys
import threading
from typing import List, NamedTuple

HERE = os.path.dirname(os.path.realpath(__file__))
SCRIPTS = os.path.join(os.path.dirname(HERE), "scripts")
# The script whose commands must all be found to differ.
WRONG = "wrong.failing"


class Stopped(Exception):
    """All commands were ended, and no other one is started."""


class Commands:
    """The running commands. Each has a process group of its own, so that what it started can be ended with it."""

    def __init__(self, limit):
        self.limit, self.lock, self.running, self.is_stopped = limit, threading.Lock(), set(), False

    def run(self, words, limit=None, **given):
        """Returns the status of a command and what it printed on both streams. The status is None if it did not end in time, and
        negative if a signal ended it."""
        with self.lock:
            if self.is_stopped:
                raise Stopped
            process = subprocess.Popen(words, stdin=subprocess.DEVNULL, stdout=subprocess.PIPE, stderr=subprocess.PIPE,
                                       start_new_session=True, **given)
            self.running.add(process)
        try:
            out, err = process.communicate(timeout=limit or self.limit)
            status = process.returncode
        except subprocess.TimeoutExpired:
            self.kill(process)
            out, err, status = b"", b"", None
        finally:
            with self.lock:
                self.running.discard(process)
        if self.is_stopped:
            raise Stopped
        return status, out, err

    @staticmethod
    def kill(process):
        try:
            os.killpg(process.pid, signal.SIGKILL)
        except ProcessLookupError:
            pass
        process.wait()
        # what has left the group may still hold them
        process.stdout.close()
        process.stderr.close()

    def stop(self):
        with self.lock:
            self.is_stopped = True
            for process in self.running:
                try:
                    os.killpg(process.pid, signal.SIGKILL)
                except ProcessLookupError:
                    pass


class Step(NamedTuple):
    line: int
    command: str
    # the expected lines, those of standard output before those of standard error
    expected: List[str]
    status: int


def steps_of(text):
    """Returns the commands of a script. A line `$ COMMAND` begins a command, and lines `> MORE` continue it. Then come the expected
    lines, and `[STATUS]` unless it is 0. Blank lines and lines that begin with `#` are ignored before a command and at the end."""
    found = []
    for number, line in enumerate(text.split("\n"), 1):
        if line.startswith("$ "):
            found.append([number, line[2:], []])
        elif found and line.startswith("> ") and not found[-1][2]:
            found[-1][1] += "\n" + line[2:]
        elif found:
            found[-1][2].append(line)
    steps = []
    for number, command, expected in found:
        while expected and (not expected[-1] or expected[-1].startswith("#")):
            expected.pop()
        status = 0
        if expected and expected[-1][0] == "[" and expected[-1][-1] == "]" and expected[-1][1:-1].isdigit():
            status = int(expected.pop()[1:-1])
        steps.append(Step(number, command, expected, status))
    return steps


def lines_of(printed):
    """Returns the lines of what was printed. If the last one has no line end, a line that says so follows."""
    lines = printed.decode("utf-8", "backslashreplace").split("\n")
    return lines[:-1] if not lines[-1] else [*lines, "(no end of line)"]


def is_expected(line, expected):
    """Whether a printed line is the expected one, of which `(..)` at the end stands for any rest."""
    return line.startswith(expected[:-4]) if expected.endswith("(..)") else line == expected


def difference(expected, lines, most):
    """Returns lines that show where printed lines differ from expected ones: `-` is expected, `+` is printed."""
    met = [line if is_expected(line, wanted) else wanted for line, wanted in zip(lines, expected)]
    compared = list(difflib.unified_diff(met + expected[len(met):], lines, n=2, lineterm=""))[3:]
    shown = [".." if line.startswith("@@ ") else line for line in compared]
    return shown[:most] + [f"(and {len(shown) - most} more lines)"] * (len(shown) > most)


class Played(NamedTuple):
    commands: int
    differing: int
    # what is wrong, in lines; none if all is as the script says
    shown: List[str]
    is_late: bool = False


class Player:
    """Plays scripts with a program, in folders below `room`."""

    def __init__(self, program, room, commands, environment):
        self.room, self.commands = room, commands
        os.makedirs(f"{room}/bin")
        # links, since a folder in memory may be one from which nothing is started
        os.symlink(os.path.realpath(program), f"{room}/bin/timewarp")
        os.symlink(SCRIPTS, f"{room}/data")
        path = [f"{room}/bin", f"{room}/data/tools", "/usr/local/bin", "/usr/bin", "/bin", os.path.dirname(sys.executable)]
        # below a fault is nothing, unless a command asks for it: most scripts are about the fault alone
        self.environment = {"TIMEWARP_ADVICE": "0", **environment, "PATH": ":".join(path), "DATA": f"{room}/data", "HOME": room}

    def play(self, name, commands=2, lines=20):
        """Plays a script in a folder of its own. It goes on after a command that differs, but not after one that does not end. It shows
        so many commands that differ, and so many lines of each."""
        with open(f"{SCRIPTS}/{name}", encoding="utf-8") as file:
            steps = steps_of(file.read())
        folder = f"{self.room}/played-{name}"
        os.mkdir(folder)
        differing, shown, is_late = 0, [], False
        for step in steps:
            status, out, err = self.commands.run(["/bin/sh", "-c", step.command], cwd=folder, env=self.environment)
            printed = lines_of(out + err)
            is_as_said = len(printed) == len(step.expected) and all(map(is_expected, printed, step.expected))
            if status == step.status and is_as_said:
                continue
            differing += 1
            is_late = status is None
            if differing <= commands or is_late:
                shown += f"line {step.line} differs: $ {step.command}".replace("\n", "\n> ").split("\n")
                if is_late:
                    shown.append(f"it does not end within {self.commands.limit:.0f} seconds")
                    break
                shown += difference(step.expected, printed, lines)
                if status != step.status:
                    shown.append(f"its status is {status}, expected {step.status}" if status >= 0 else f"ended by signal {-status}")
        if differing > commands and not is_late:
            shown.append(f"and {differing - commands} more of {len(steps)} commands differ")
        if not steps:
            shown.append("it has no command")
        shutil.rmtree(folder, ignore_errors=True)
        return Played(len(steps), differing, shown, is_late)


def scripts():
    """Returns the names of the scripts, without `.script`."""
    return sorted(name[:-len(".script")] for name in os.listdir(SCRIPTS) if name.endswith(".script"))


def purpose(name):
    """Returns the first sentence of the first comment of a script."""
    words = []
    with open(f"{SCRIPTS}/{name}.script", encoding="utf-8") as file:
        for line in file:
            if not line.startswith("#"):
                if words:
                    break
                continue
            words += line[1:].split()
            stop = next((place for place, word in enumerate(words) if word.endswith(".")), None)
            if stop is not None:
                return " ".join(words[:stop + 1])[:-1]
    return " ".join(words)
