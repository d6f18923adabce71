"""The work of one job: draws a case, runs it, judges it, and keeps what reaches new code."""
import os
import random
import sys
import time

from . import change, judge, luma
from .cases import Case, keep, kept
from .runs import Runner, Stopped

# of what is drawn: cases of bench/cases, as they are or changed, and the rest by command from what is there
MADE = 0.25
# one run of so many looks at the ways of jumps, and after so many seconds a job takes what the others have kept
WAYS, OTHER_JOBS = 12, 20


class Counts:
    """What a job counts."""

    def __init__(self):
        self.runs = self.kept = self.compared = self.differ = self.unanswered = 0

    def __iadd__(self, more):
        for name, value in vars(more).items():
            setattr(self, name, getattr(self, name) + value)
        return self


class Job:
    """One job of bench/guided."""

    def __init__(self, asked, number):
        self.asked, self.counts = asked, Counts()
        self.draws = random.Random(f"{asked.seed} {number}")
        self.runner = Runner(asked)
        self.second = judge.Second(asked.second)
        self.cases, self.known = {}, set()
        self.looked = 0.0

    def add(self, case):
        """Puts a case among those that are changed. Words that name no command are of one sort."""
        command = case.command() if case.command() in change.COMMANDS else ""
        self.cases.setdefault(command, []).append(case)

    def look(self):
        """Takes what other jobs have kept."""
        if time.monotonic() - self.looked > OTHER_JOBS:
            for case in kept(self.asked.corpus, self.known):
                self.add(case)
            self.looked = time.monotonic()

    # Cases

    def one_of(self, command):
        """A case of the command: as often one of the latest as one of all."""
        them = self.cases[command]
        return self.draws.choice(them[-30:] if self.draws.random() < 0.4 else them)

    def share(self):
        """A command: each as often, but those that read nothing a fifth as often."""
        while True:
            command = self.draws.choice(list(self.cases))
            if self.draws.random() < 0.2 or any(case.input for case in self.cases[command][:20]):
                return command

    def drawn(self):
        draws = self.draws
        if draws.random() < MADE:
            made = self.second.case(draws.getrandbits(64), draws.getrandbits(64))
            if made:
                case = Case(*made)
                other = self.one_of(case.command()) if case.command() in self.cases else case
                return case if draws.random() < 0.3 else change.changed(case, other, draws)
        command = self.share()
        case = self.one_of(command)
        other = self.one_of(command if draws.random() < 0.9 else draws.choice(list(self.cases)))
        return change.changed(case, other, draws)

    # Runs

    def step(self, case, is_first=False, is_compared=False):
        """Runs a case, and judges it: by the statuses, and by the second reading if that is wanted or it reached new
        code, else now and then. Answers how it ended."""
        ended = self.runner.run(case, is_first or self.draws.randrange(WAYS) == 0)
        self.counts.runs += 1
        wrong = judge.complaint(case, ended, self.asked.most_output)
        if not wrong and (is_compared or ended.new or self.draws.randrange(self.asked.compare) == 0):
            wrong = self.compared(case, ended)
        if wrong:
            self.counts.differ += 1
            path = keep(case, self.asked.differ)
            print(f"tc {case.told()[:300]}: {wrong}; kept as {path}", file=sys.stderr, flush=True)
        elif ended.new:
            self.counts.kept += 1
            self.known.add(os.path.basename(keep(case, self.asked.corpus)))
            self.add(case)
        return ended

    def compared(self, case, ended):
        """What differs from the second reading, if it knows the command."""
        # (a run whose output is full, or which had no memory, may have gigabytes still to write)
        if ended.code in (6, 8) or len(ended.output) >= self.asked.most_output:
            return None
        if judge.is_cut(case, ended):
            whole = self.step(case._replace(fault="none", number=0), is_compared=True)
            return judge.front(ended, whole)
        if case.command() == "help" and not ended.code:
            return None
        if case.command() == "luma-vitc" and not self.second.knows_luma:
            if not (ended.new or self.draws.randrange(30) == 0):
                return None
            wanted = luma.wanted(case, ended)
        else:
            wanted = self.second.told(case.words, case.input, self.asked.most_output)
            self.counts.unanswered += wanted is None
        if wanted is None:
            return None
        self.counts.compared += 1
        return judge.difference(case, ended, wanted)

    def work(self, cases, is_over, only_these=False):
        """Runs these cases, and then what it draws, until it is over."""
        for case in cases:
            self.add(case)
            self.known.add(case.name())
        try:
            for case in cases:
                if is_over():
                    return
                self.step(case, True)
            self.look()
            while not only_these and not is_over():
                self.step(self.drawn())
                self.look()
        except Stopped:
            print("bench/guided: a runner has ended", file=sys.stderr)
            self.counts.differ += 1
        finally:
            self.runner.end()
            self.second.end()
