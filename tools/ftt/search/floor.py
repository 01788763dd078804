"""A window that no phases go below."""
import itertools
import math
from collections import Counter

# So many periods that do not divide a span are looked at together, and so many spans.
PERIODS, SPANS = 14, 400


def needs_more(frames, cycles, window):
    """Whether these frames, worst lengths with their numbers, can't be sent in so many cycles of this window. Where it
    is False they may or may not. Frames longer than window - a fill a cycle to less than a, and of those longer than
    half a window a cycle has one."""
    for a in {0, *(cost for cost in frames if 2 * cost <= window)}:
        alone = sum(many for cost, many in frames.items() if cost > window - a)
        large = {cost: many for cost, many in frames.items() if window - a >= cost and 2 * cost > window}
        small = sum(cost * many for cost, many in frames.items() if a <= cost and 2 * cost <= window)
        halves = sum(large.values())
        beside = halves * window - sum(cost * many for cost, many in large.items())
        if (alone + halves) * window + max(0, small - beside) > cycles * window:
            return True
    return False


def heaviest(messages, span):
    """The heaviest messages, at most one of a period, whose periods have pairwise divisors in common that divide the
    span alone."""
    best = {}
    for it in messages:
        if it.cost > best.get(it.period, (0,))[0]:
            best[it.period] = (it.cost, it)
    known = sorted(best.values(), key=lambda pair: -pair[0])[:PERIODS]

    def chosen(taken, left):
        while left:
            (_, it), *left = left
            if all(span % math.gcd(it.period, other.period) == 0 for other in taken):
                return max(chosen([*taken, it], left), chosen(taken, left), key=lambda found: sum(m.cost for m in found))
        return taken

    return chosen([], known)


def within(messages, span):
    """Frames that are released in some span of so many cycles, for any phases: worst lengths with their numbers.

    A message is released in each span at least so often as its period fits into it. Of messages whose common divisors
    in pairs all divide the span, let r be the first release of each modulo the span. Then the releases less r agree
    modulo each common divisor. So there is a cycle, r after which each of them is released: all in one span."""
    frames = Counter()
    for it in messages:
        frames[it.cost] += span // it.period
    for it in heaviest([it for it in messages if it.period > span], span):
        frames[it.cost] += 1
    return +frames


def spans_of(periods, common):
    """Spans worth a look: what periods have in common, and common multiples of that."""
    known = {1, common}
    for one in sorted({math.gcd(a, b) for a, b in itertools.combinations_with_replacement(sorted(periods), 2)}):
        known |= {math.lcm(one, other) for other in known if math.lcm(one, other) < common}
        if len(known) > SPANS:
            break
    return sorted(known)[:SPANS]


def least(messages, windows):
    """The place of the first window that is not out of question for all phases; the number of windows where all are."""
    common = math.lcm(*(it.period for it in messages))
    demands = []
    for deadline in sorted({it.deadline for it in messages}):
        some = [it for it in messages if it.deadline <= deadline]
        demands += [(within(some, span), span + deadline - 1) for span in spans_of({it.period for it in some}, common)]
    # In the long run a common period has room for what it releases.
    demands.append((within(messages, common), common))
    longest = max(it.cost for it in messages)
    return next((place for place, window in enumerate(windows) if window >= longest and
                 not any(needs_more(frames, cycles, window) for frames, cycles in demands)), len(windows))
