"""What makes a switch whole in every cycle in which it may be asked for."""
from ..desk import ACCEPTED, Asked
from ..limits import FILLS, OPERATIONS, POLICIES, WINDOW
from ..system import room
from ..telling import some
from .parallel import swept
from .sweep import Sweep, is_half, is_whole

# So many cycles it is waited at most, and by so many bit times a window is made wider each time.
WAITS, STEP = 64, 5


class Help:
    """Something that helps: what it is, how late the last first frame has ended after the hit, in bit times, and the sweep
    with it. None where only the refused cycles were tried, or no message comes."""

    def __init__(self, told, hit=None, sweep=None):
        self.told, self.hit, self.sweep = told, hit, sweep


def worst_hit(sweep):
    """How late the last first frame has ended after the hit, of all trials; None where no message comes."""
    return max((it.hit for it in sweep.trials if it.hit is not None), default=None)


def cycles_of(base, chosen=None):
    """The cycles before which is asked: those that are chosen, or all up to the first repeat of the plan."""
    every = range(base.begin, base.end)
    return every if chosen is None else [it for it in chosen if it in every]


def later(asked, place, wait):
    """The changes with those from a place on so many cycles later."""
    return [it if at < place else Asked(it.operator, it.ahead + wait, it.operations) for at, it in enumerate(asked)]


def whole_at(sweep, cycles, step):
    """Whether a switch is whole before each of some cycles, up to the first at which it is not."""
    for cycle in cycles:
        if not is_whole(sweep.at(cycle)):
            return False
        step()
    return True


class Search:
    """A look for what helps. Where not all cycles are to be tried, those in which the switch is refused are tried alone."""

    def __init__(self, sweep, desk, chosen, is_all, jobs, step):
        self.sweep, self.desk, self.chosen, self.is_all, self.jobs, self.step = sweep, desk, chosen, is_all, jobs, step
        self.refused = [it.cycle for it in sweep.refused()]
        self.found, self.vain = [], []

    def tried(self, base, asked):
        """The sweep of a remedy, where it helps: the cycles in which the switch is refused are tried first, and then all."""
        if base is None:
            return None
        sweep = Sweep(base, asked)
        if not whole_at(sweep, [it for it in self.refused if base.begin <= it < base.end], self.step):
            return None
        if not self.is_all:
            return sweep
        sweep = Sweep(base, asked)
        swept(sweep, list(cycles_of(base, self.chosen)), self.jobs, lambda _: self.step())
        return sweep if all(map(is_whole, sweep.trials)) else None

    def helps(self, told, sweep):
        """Notes what helps."""
        self.found.append(Help(told, worst_hit(sweep) if self.is_all else None, sweep))

    def again(self):
        """To ask again for what was refused, before each next cycle."""
        most, hits, sweep = 0, [worst_hit(self.sweep)], self.sweep
        for trial in sweep.refused():
            wait, hit = asked_again(sweep, trial, self.step)
            if wait is None:
                self.vain.append(f"to ask again before each next cycle, {WAITS} times")
                return
            most = max(most, wait)
            hits.append(hit)
        self.found.append(Help("ask again for what was refused, before each next cycle: it is accepted after "
                               f"{some(most, 'cycle')} at most", max((it for it in hits if it is not None), default=None)))

    def waited(self):
        """To ask for what is refused with a later START."""
        base, asked = self.sweep.base, self.sweep.asked
        place = min(next(at for at, it in enumerate(trial.verdicts) if it.word != ACCEPTED)
                    for trial in self.sweep.refused())
        for wait in range(1, WAITS + 1):
            sweep = self.tried(base, later(asked, place, wait))
            if sweep is not None:
                which = f"change {place + 1}" if place + 1 == len(asked) else f"the changes from {place + 1} on"
                self.helps(f"ask for {which if place else 'all'} at the same time, with a START that is "
                           f"{some(wait, 'cycle')} later", sweep)
                return
        self.vain.append(f"a START that is 1 to {WAITS} cycles later")

    def widened(self):
        """A wider window."""
        rules = self.sweep.base.rules
        widest = min(room(rules.cycle, rules.slots, rules.turnaround), WINDOW[1])
        for window in range(rules.window + STEP, widest + 1, STEP):
            sweep = self.tried(self.base_of(rules._replace(window=window)), self.sweep.asked)
            if sweep is not None:
                self.helps(f"a window of {window} in place of {rules.window}: {widest - window} bit times of a cycle are left "
                           "for asynchronous frames", sweep)
                return
        self.vain.append(f"windows up to {widest}" if widest > rules.window else "a wider window, for which there is no room")

    def ordered(self):
        """Another policy or filling."""
        rules, names = self.sweep.base.rules, []
        for policy, fill in ((policy, fill) for policy in POLICIES for fill in FILLS):
            if (policy, fill) == (rules.policy, rules.fill):
                continue
            sweep = self.tried(self.base_of(rules._replace(policy=policy, fill=fill)), self.sweep.asked)
            if sweep is not None:
                self.helps(f"{policy} and {fill} in place of {rules.policy} and {rules.fill}", sweep)
                return
            names.append(f"{policy} {fill}")
        self.vain.append(f"other policies and fillings ({', '.join(names)})")

    def lesser(self):
        """Another order, with which fewer messages are gone where the switch ends half done: the last change takes as many
        of the removals as it can. The slots that are removed first then, the most of them that are gone without the rest in
        a refused cycle, and how many are gone so far. None where there is no such order."""
        asked, sweep = self.sweep.asked, self.sweep
        if len(asked) != 2 or asked[0].ahead != asked[1].ahead or any(it.word != "remove" for it in asked[0].operations):
            return None
        spare, before = OPERATIONS - len(asked[1].operations), sweep.subject.before
        if not spare or any(it.fields["SLOT"] not in before for it in asked[0].operations):
            return None
        urgent = sorted(asked[0].operations, key=lambda it: (before[it.fields["SLOT"]].deadline, it.fields["SLOT"]))
        moved, kept = urgent[:spare], urgent[spare:]
        made = [Asked(asked[1].operator, asked[1].ahead, moved + asked[1].operations)]
        if kept:
            made.insert(0, Asked(asked[0].operator, asked[0].ahead, kept))
        other = Sweep(sweep.base, made)
        trials = [other.at(cycle) for cycle in self.refused]
        lost = max(sum(len(it.operations) for it, said in zip(made, trial.verdicts) if said.word == ACCEPTED)
                   for trial in trials) if any(map(is_half, trials)) else 0
        return sorted(it.fields["SLOT"] for it in kept), lost, len(asked[0].operations)

    def base_of(self, rules):
        """The base with other rules; None where it is refused then."""
        made = self.desk.base(self.desk, rules, self.sweep.base.setup)
        return made if made.refused is None else None

    def all(self):
        """What helps, and what was tried in vain."""
        self.again()
        self.waited()
        self.widened()
        self.ordered()
        return self.found, self.vain


def asked_again(sweep, trial, step):
    """After how many cycles all changes of a trial are accepted, if what was refused is asked for again before each next
    cycle; and how late the last first frame has ended after the hit. None for both where that never happens."""
    script = [it for it, said in zip(sweep.asked, trial.verdicts) if said.word == ACCEPTED]
    waiting = [it for it, said in zip(sweep.asked, trial.verdicts) if said.word != ACCEPTED]
    late = {}
    for wait in range(1, WAITS + 1):
        script.append(1)
        verdicts, masks = sweep.base.trial(trial.cycle, [*script, *waiting], sweep.most + WAITS)
        step()
        left = []
        for it, said in zip(waiting, verdicts[-len(waiting):]):
            if said.word == ACCEPTED:
                script.append(it)
                late |= {operation.fields["SLOT"]: wait for operation in it.operations}
            else:
                left.append(it)
        waiting = left
        if not waiting:
            return wait, Sweep(sweep.base, sweep.asked).followed(trial.cycle, masks, late)[0]
    return None, None


