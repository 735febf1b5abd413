"""What a run reached of Java files, by its cover and a map.

A cover counts instructions. How often a branch was taken follows from that: what comes to an instruction from all sides is its count, and
what leaves a branch is the branch's. Where that leaves several answers, as behind calls that threw, nothing is told of the branch.
"""


class Source:
    """What was carried out of a Java file: how often each line and each method, in which line the method begins; and of each branch its
    line, its place, how often it was come to, and how often it went each way."""

    def __init__(self):
        self.lines, self.methods, self.branches = {}, [], []

    def add(self, method, counts):
        lines = method.lines()
        for place, line in lines.items():
            self.lines[line] = max(self.lines.get(line, 0), counts.get(place, 0))
        for at, ways in ways_of(method, counts).items():
            if at in lines:
                self.branches.append((lines[at], at, counts.get(at, 0), ways))
        if lines:
            self.methods.append((min(lines.values()), counts.get(method.places[0][0], 0), method.name))


def edges_of(method):
    """Where each instruction of a method leads: pairs of offsets, and those that only go on where nothing is thrown."""
    places = [place for place, _ in method.places or ()]
    edges, may_throw = [], set()
    for at, following in zip(places, [*places[1:], None]):
        kind, targets = method.flow.get(at, (None, []))
        if kind in (None, "branch") and following is not None:
            edges.append((at, following))
        edges += [(at, target) for target in targets if (at, target) not in edges]
        if kind is None:
            may_throw.add((at, following))
    return edges, may_throw


def ways_of(method, counts):
    """Of each branch and switch of a method how often it went each way, in the order of the places where they lead: those of which the counts tell it."""
    edges, may_throw = edges_of(method)
    known = {edge: counts.get(edge[0], 0) for edge in edges if method.flow.get(edge[0], ("",))[0] == "jump" or edge in may_throw and not counts.get(edge[0])}
    entry = method.places[0][0] if method.places else None
    sums = [(counts.get(at, 0), [edge for edge in edges if edge[1] == at]) for at in {edge[1] for edge in edges} - {entry}]
    branches = [at for at, (kind, _) in method.flow.items() if kind in ("branch", "switch")]
    sums += [(counts.get(at, 0), [edge for edge in edges if edge[0] == at]) for at in branches]
    while solved(sums, known):
        pass
    ways = {at: [known.get(edge, -1) for edge in sorted(edge for edge in edges if edge[0] == at)] for at in branches}
    return {at: numbers for at, numbers in ways.items() if len(numbers) > 1 and min(numbers) >= 0 and sum(numbers) == counts.get(at, 0)}


def solved(sums, known):
    """Adds to what is known what follows from one of the sums; whether anything did."""
    before = len(known)
    for total, edges in sums:
        unknown = [edge for edge in edges if edge not in known]
        if len(unknown) == 1:
            known[unknown[0]] = total - sum(known[edge] for edge in edges if edge in known)
        elif total == 0:
            known.update((edge, 0) for edge in unknown)
    return len(known) > before


def sources_of(packages, names):
    """The Java files of a map, by their names."""
    sources = {}
    for aid, package in names.items():
        for method in package.methods:
            owner = package.class_of(method)
            if owner and method.lines():
                sources.setdefault(owner.file, Source()).add(method, packages.get(aid, {}))
    return sources
