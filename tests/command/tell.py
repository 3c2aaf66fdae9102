"""Runs the command and counts what was looked at.

The watch over memory looks for leaks at the end of a run. On x86-64 that takes no time and is done at the end of each; elsewhere it goes through every place that could hold memory,
some four seconds, and is done for the first run of each of the commands that must end well.
"""
import os
import platform
import subprocess

LEAKS = platform.machine() == "x86_64"
COMMANDS = ("check", "list", "show", "draw", "stats")


def watched(leaks):
    """The surroundings of a run: what the watch looks for, leaks among it or not."""
    return dict(os.environ, UBSAN_OPTIONS="print_stacktrace=1", ASAN_OPTIONS=f"detect_leaks={int(leaks)}")


class Tell:
    """A build of the command, and the checks made on it."""

    def __init__(self, command):
        self.command, self.made, self.wrong = command, 0, 0
        self.surroundings, self.looked = watched(LEAKS), set()

    def run(self, *words, given=b"", out=subprocess.PIPE, leaks=LEAKS):
        """Runs it. Gives the status, and what it said on standard output and on standard error."""
        words = [word if isinstance(word, bytes) else str(word) for word in words]
        done = subprocess.run([self.command, *words], input=given, stdout=out, stderr=subprocess.PIPE, env=watched(leaks), check=False)
        said = done.stdout.decode("utf-8", "replace") if done.stdout is not None else ""
        return done.returncode, said, done.stderr.decode("utf-8", "replace")

    def good(self, *words, given=b""):
        """What it says where it must end well and say nothing on standard error."""
        first = words[0] in COMMANDS and words[0] not in self.looked
        self.looked.add(words[0])
        status, said, aside = self.run(*words, given=given, leaks=LEAKS or first)
        self.check((status, aside) == (0, ""), f"{words}: status {status}, and said: {aside}")
        return said

    def same(self, got, wanted, what):
        self.check(got == wanted, f"{what}: {got!r} where {wanted!r} was wanted")

    def check(self, holds, what):
        """Counts one check, and says what is wrong where it does not hold."""
        self.made += 1
        if not holds:
            self.wrong += 1
            print(f"WRONG: {what}"[:2000])
