"""A check in parts: a line for each, and how many there were."""
import subprocess
import sys

from .kit import BuildFault


class LeftOut(Exception):
    """Why a part is not checked here."""


class Parts:
    """The parts so far."""

    def __init__(self):
        self.passed = self.failed = self.skipped = 0

    def tell(self, kind, name, why=""):
        """Prints the line of a part."""
        print(f"{kind:<8}{name}{f': {why}' if why else ''}", flush=True)

    def part(self, name, call):
        """Runs a part, and prints its line. What the call answers, where it is a text, stands after the name. It answers
        whether the part passed."""
        try:
            told = call()
        except LeftOut as why:
            self.skipped += 1
            self.tell("skipped", name, str(why))
            return False
        except (BuildFault, OSError, subprocess.SubprocessError, AssertionError) as why:
            self.failed += 1
            self.tell("FAILED", name, str(why).strip().replace("\n", "\n        "))
            return False
        self.passed += 1
        self.tell("ok", name, told if isinstance(told, str) else "")
        return True

    def end(self):
        """Prints the last line, and answers the status."""
        print(f"{self.passed} passed, {self.failed} failed, {self.skipped} skipped")
        sys.stdout.flush()
        return int(self.failed > 0)
