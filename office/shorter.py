"""An argument made shorter: claims that nothing uses are left out, and steps that are not needed. What comes out is
weighed as if it came from anywhere."""
from collections import Counter

from office.claims import Claim, Ground, Step, argument_text
from office.frames import CUTS
from office.records import dataclass, field, replace

# Steps of which the last counts and the others lead to it.
Group = list[Step]


@dataclass
class Asked:
    """What the claims that are kept ask of one before them: gaps to exclude; if it leads, from which gap on and up to
    which; and the groups that use it, each with its claim."""
    gaps: set[int] = field(default_factory=set)
    starts: set[int] = field(default_factory=set)
    ends: set[int] = field(default_factory=set)
    users: list[tuple[int, Group]] = field(default_factory=list)


class Shorter:
    """A shorter argument from one that holds: of each claim as few sets as are found, and only claims that are used.

    Steps come in groups, each of which ends with one that counts: what leads to it is forgotten behind it, so groups
    can be left out one by one. From the outermost loop inwards each claim is asked only for what those kept use."""

    def __init__(self, ground: Ground, claims: list[Claim]):
        self.ground, self.claims, self.known = ground, claims, ground.follow(claims)
        self.asked = {number: Asked() for number, claim in enumerate(claims) if claim.is_low}
        self.kept: dict[int, tuple[Claim, list[Group]]] = {}

    def made(self) -> list[Claim]:
        for number in reversed(range(len(self.claims))):
            if number in self.asked and not self.passed_on(number):
                self.keep(number)
        order = sorted(self.kept, key=lambda number: (self.ground.paper.end[self.claims[number].loop], number))
        places = {number: place for place, number in enumerate(order)}
        return [replace(claim, steps=tuple(step if step.led is None else replace(step, led=places[step.led])
                                           for group in groups for step in group))
                for claim, groups in map(self.kept.__getitem__, order)]

    def keep(self, number: int) -> None:
        """Keeps a claim: what is asked of it, and as few groups of it as are found."""
        claim, asked = self.claims[number], self.asked[number]
        if not claim.is_low:
            claim = self.weaker(claim, asked)
        excluded = {gap for k in self.before(number) for gap in self.known[k].excludes}
        groups = [self.led_less(claim, group, excluded) for group in groups_of(claim)]
        chosen = self.chosen(claim, groups, asked.gaps if claim.is_low else set())
        self.kept[number] = claim, chosen
        for group in chosen:
            self.use(number, group)

    def before(self, number: int) -> list[int]:
        """The claims before one that are about loops inside its own."""
        d = self.claims[number].loop
        return [k for k in range(number) if d < self.claims[k].loop < self.ground.paper.end[d]]

    def weaker(self, claim: Claim, asked: Asked) -> Claim:
        """A claim that says no more than is asked of it."""
        start = min(asked.gaps | asked.starts, default=claim.start) if claim.start else 0
        upto = max(asked.gaps | asked.ends, default=claim.upto) if claim.upto else 0
        return replace(claim, start=start, upto=upto)

    def passed_on(self, number: int) -> bool:
        """A loop without barriers of its own, in which none stands from a gap on, or up to one, as others lead to it:
        whether those who use this lead to it themselves, where they are few."""
        claim, users = self.claims[number], self.asked[number].users
        if self.ground.counts[claim.loop] or bool(claim.start) == bool(claim.upto) or len(users) > 2:
            return False
        leading = min(groups_of(claim), key=len, default=[Step(CUTS)])
        if leading[-1].kind == CUTS:
            return False
        for user, group in users:
            group[:0] = leading[:-1]
            self.use(user, group)
        return True

    def rest(self, claim: Claim, step: Step) -> set[int]:
        """The gaps of a step that need a reason: they are no own gaps, and not of a loop without barriers."""
        return {gap for gap in self.ground.named(claim, step) - self.ground.own[claim.loop]
                if self.ground.plain(gap) is None}

    def use(self, number: int, group: Group) -> None:
        """Asks the claims before one for what a group of it uses."""
        claim = self.kept[number][0]
        said: list[tuple[int, set[int]]] = []
        for step in group:
            rest = self.rest(claim, step)
            if step.led is not None:
                leads = self.claims[step.led]
                entered = rest & self.ground.within(leads.loop, first=leads.start)
                self.asked.setdefault(step.led, Asked()).starts |= entered
                rest -= entered
            rest -= self.ask(rest, [k for k in self.before(number) if self.claims[k].is_low], number, group)
            for led, gaps in said:
                self.asked[led].ends |= rest & gaps
                rest -= gaps
            self.ask(rest, self.before(number), number, group)
            if step.led is not None:
                said.append((step.led, self.ground.within(leads.loop, last=leads.upto)))

    def ask(self, gaps: set[int], claims: list[int], number: int, group: Group) -> set[int]:
        """Asks claims to exclude gaps, those first that are asked for some already; gives the gaps that they do."""
        rest = gaps
        while rest:
            k = max(claims, default=None, key=lambda k: (
                bool(self.known[k].excludes & rest), k in self.asked and bool(self.asked[k].gaps & rest),
                k in self.asked, len(self.known[k].excludes & rest)))
            if k is None or not self.known[k].excludes & rest:
                break
            asked = self.asked.setdefault(k, Asked())
            asked.gaps |= self.known[k].excludes & rest
            asked.users += [] if any(group is other for _, other in asked.users) else [(number, group)]
            rest = rest - self.known[k].excludes
        return gaps - rest

    def led_less(self, claim: Claim, group: Group, excluded: set[int]) -> Group:
        """A group without the steps that lead to nothing."""
        for step in group[:-1]:
            rest = [one for one in group if one is not step]
            if self.is_led(claim, rest, excluded):
                group = rest
        return group

    def is_led(self, claim: Claim, group: Group, excluded: set[int]) -> bool:
        """Whether a group has a reason for every gap, where some are excluded."""
        said = excluded
        for step in group:
            rest = self.rest(claim, step) - said
            if step.led is not None:
                leads = self.claims[step.led]
                rest -= self.ground.within(leads.loop, first=leads.start)
                said = said | self.ground.within(leads.loop, last=leads.upto)
            if rest:
                return False
        return True

    def chosen(self, claim: Claim, groups: list[Group], wanted: set[int]) -> list[Group]:
        """So many groups that no gap is named more than m times, and that they are enough, for the least m that is
        found; if gaps are to be excluded, none of these named so often."""
        count, own = self.ground.counts[claim.loop], self.ground.own[claim.loop]
        names = [Counter(gap for step in group for gap in self.ground.named(claim, step) & own) for group in groups]
        sizes = sorted(sum(one.values()) for one in names)
        short = sorted(range(len(groups)), key=lambda k: (len(groups[k]), sum(names[k].values())))
        for most in range(1, len(groups) + 1):
            enough = count * most if wanted else (count - claim.is_low) * most + 1
            if enough > len(groups) or sum(sizes[:enough]) > most * len(own):
                continue
            for order in (short, range(len(groups) - 1, -1, -1), range(len(groups))):
                some: list[int] = []
                times = Counter[int]()
                for k in order:
                    if len(some) < enough and all(times[gap] + many + (gap in wanted) <= most
                                                  for gap, many in names[k].items()):
                        some.append(k)
                        times.update(names[k])
                if len(some) == enough:
                    return [groups[k] for k in sorted(some)]
        return groups


def groups_of(claim: Claim) -> list[Group]:
    """The steps of a claim, each that counts with those that lead to it."""
    groups: list[Group] = [[]]
    for step in claim.steps:
        groups[-1].append(step)
        groups += [[]] if step.led is None else []
    return groups[:-1]


def shortened(ground: Ground, claims: list[Claim]) -> list[Claim]:
    """An argument made shorter again and again, until it is not any more."""
    while True:
        before, claims = claims, Shorter(ground, claims).made()
        if len(argument_text(claims)) >= len(argument_text(before)):
            return min(claims, before, key=lambda some: len(argument_text(some)))
