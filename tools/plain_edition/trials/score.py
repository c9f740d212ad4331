"""Counts what the tests see."""
from concurrent import futures
import time

# A step may build by cargo, and each build takes memory.
AT_ONCE = 4


def print_line(text):
    print(text, flush=True)


class Score:
    """How many checks passed and failed, said step by step."""

    def __init__(self, say=print_line):
        self.passed = self.failed = 0
        self.failed_steps = []
        self.say = say
        self.started = time.time()

    def check(self, is_right, what):
        """Counts one check, and says what failed."""
        self.count(int(bool(is_right)), int(not is_right))
        if not is_right:
            self.say(f"FAILED {what}")

    def count(self, passed, failed):
        self.passed += passed
        self.failed += failed

    def step(self, name, action, *words):
        """One step with its time. One that stops by itself is a failure, and the others go on."""
        before, started = (self.passed, self.failed), time.time()
        try:
            said = action(self, *words)
        except (Exception, SystemExit) as error:  # pylint: disable=broad-except
            said = None
            self.check(False, f"{name}: {type(error).__name__}: {error}")
        passed, failed = self.passed - before[0], self.failed - before[1]
        if failed:
            self.failed_steps.append(name)
        more = f", {said}" if said else ""
        self.say(f"{name}: {passed} passed, {failed} failed{more} ({time.time() - started:.0f} s)")

    def side_by_side(self, steps):
        """Steps that don't need each other, some at once. What a step says comes as one piece, in the order of the list."""
        self.say(f"side by side, {AT_ONCE} at once: {', '.join(name for name, *_ in steps)}")
        with futures.ThreadPoolExecutor(AT_ONCE) as pool:
            for lines, alone in pool.map(run_alone, steps):
                self.count(alone.passed, alone.failed)
                self.failed_steps += alone.failed_steps
                for line in lines:
                    self.say(line)

    def end(self):
        """Names the steps that failed. The last line counts."""
        self.say(f"all steps took {time.time() - self.started:.0f} s")
        if self.failed_steps:
            self.say(f"steps with failures, which are shown before their lines: {', '.join(self.failed_steps)}")
        self.say(f"{self.passed} passed, {self.failed} failed")
        return int(self.failed > 0 or self.passed == 0)


def run_alone(step):
    """What a step says, and its own score."""
    lines = []
    alone = Score(lines.append)
    alone.step(*step)
    return lines, alone
