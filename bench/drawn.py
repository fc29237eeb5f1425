"""Scripts that are drawn, for `bench/storm` and `.ci/explored`, as tuples: the word of a form, and then its parts in the order
of the text."""
from typing import NamedTuple


class Names:
    """The names in scope: of values, of this fiber's polls, and of fibers."""

    def __init__(self, values=(), polls=(), fibers=()):
        self.values, self.polls, self.fibers = values, polls, fibers

    def with_value(self, name):
        return Names(self.values + (name,), self.polls, self.fibers)

    def with_poll(self, name):
        return Names(self.values, self.polls + (name,), self.fibers)

    def with_fiber(self, name):
        return Names(self.values, self.polls, self.fibers + (name,))

    def elsewhere(self):
        """Those that another fiber has, which begins here."""
        return Names(self.values, (), self.fibers)


class Size(NamedTuple):
    """How many fibers a script may start beside the main one, how many terms stand one after the other, and how deep they are."""
    fibers: int
    terms: int
    depth: int


class Script:
    """A script that is drawn."""

    def __init__(self, draw, size):
        self.draw, self.size = draw, size
        self.named = self.logged = 0
        self.fibers_left = size.fibers
        self.main = self.crowd(Names(), draw.randint(1, max(size.fibers - 1, 1)))

    def name(self, letter):
        self.named += 1
        return f"{letter}{self.named}"

    def log(self):
        self.logged += 1
        return ("offer", "log", self.logged)

    def crowd(self, names, count):
        """Starts so many fibers, and then meddles with them."""
        if count == 0 or self.fibers_left == 0:
            return self.body(names, self.size.depth - 1)
        self.fibers_left -= 1
        h = self.name("h")
        return ("start", h, self.body(names.elsewhere(), self.size.depth), self.crowd(names.with_fiber(h), count - 1))

    def body(self, names, depth):
        return ("seq", *[self.term(names, depth) for _ in range(self.draw.randint(1, self.size.terms))])

    def term(self, names, depth):
        leaves = self.leaves(names)
        nests = [self.masked, self.finalized, self.bracket, self.bracket, self.case, self.using, self.handled, self.repeated]
        if self.fibers_left >= 2:
            nests += [self.race]
        if self.fibers_left >= 1:
            nests += [self.inner]
        return self.draw.choice(leaves + (nests if depth > 0 else []))(names, depth - 1)

    def leaves(self, names):
        leaves = [self.told, self.told, self.element, self.element, self.queue_leaf, self.ending]
        if names.fibers:
            leaves += [self.cancel, self.cancel, self.join]
        if names.polls:
            leaves += [self.polled] * 2
        return leaves

    def told(self, names, depth):
        return self.log()

    def element(self, names, depth):
        """Puts an element and tells, or takes one and puts it back into another queue."""
        q, other = self.draw.sample(["one", "two"], 2)
        if self.draw.random() < 0.5:
            self.logged += 1
            return ("seq", ("offer", q, 10_000 + self.logged), self.log())
        x = self.name("x")
        return ("let", x, ("take", q), ("seq", self.log(), ("offer", other, x)))

    def queue_leaf(self, names, depth):
        q = self.draw.choice(["one", "two"])
        self.logged += 1
        value = self.draw.choice(names.values + (20_000 + self.logged,))
        x = self.name("x")
        return self.draw.choice([("offer", q, value), ("take", q), ("tryoffer", q, value), ("trytake", q, x, ("pure", x), self.log())])

    def ending(self, names, depth):
        return self.draw.choice([("canceled",), ("never",), ("cede",), ("raise", self.draw.randint(1, 9)), ("pure", 3), ("cede",)])

    def cancel(self, names, depth):
        return ("seq", ("cancel", self.draw.choice(names.fibers)), self.log())

    def join(self, names, depth):
        x, e = self.name("x"), self.name("e")
        return ("join", self.draw.choice(names.fibers), x, ("seq", self.log(), ("pure", x)), e, ("seq", self.log(), ("pure", e)), self.log())

    def polled(self, names, depth):
        return ("poll", self.draw.choice(names.polls), self.term(names, max(depth, 0)))

    def masked(self, names, depth):
        p = self.name("p")
        inner = names.with_poll(p)
        return ("mask", p, ("seq", self.term(inner, depth), self.log(), self.term(inner, depth)))

    def finalized(self, names, depth):
        return ("oncancel", self.term(names, depth), ("seq", self.log(), self.term(names, 0)))

    def bracket(self, names, depth):
        x = self.name("x")
        inner = names.with_value(x)
        return ("bracket", x, ("seq", self.log(), ("pure", self.draw.randint(1, 9))), self.term(inner, depth), ("seq", self.log(), self.release(inner)))

    def case(self, names, depth):
        x, y, z = self.name("x"), self.name("y"), self.name("z")
        inner = names.with_value(x)
        releases = [("seq", self.log(), self.release(scope)) for scope in (inner.with_value(y), inner.with_value(z), inner)]
        acquire = ("seq", self.log(), ("pure", self.draw.randint(1, 9)))
        return ("bracketcase", x, acquire, self.term(inner, depth), y, releases[0], z, releases[1], releases[2])

    def release(self, names):
        return self.draw.choice([("pure", 0), ("tryoffer", "one", names.values[-1]), ("raise", 8), self.log()])

    def using(self, names, depth):
        return ("bracket", self.name("x"), self.log(), self.bracket(names, depth), self.log())

    def handled(self, names, depth):
        e = self.name("e")
        return ("handle", self.term(names, depth), e, ("seq", self.log(), ("pure", e)))

    def repeated(self, names, depth):
        i = self.name("i")
        return ("for", i, self.draw.randint(0, 2), self.draw.choice([("cede",), ("tryoffer", "two", i), ("take", "one"), ("pure", i)]))

    def race(self, names, depth):
        self.fibers_left -= 2
        return ("race", self.term(names.elsewhere(), depth), self.term(names.elsewhere(), depth))

    def inner(self, names, depth):
        self.fibers_left -= 1
        h = self.name("h")
        return ("start", h, self.term(names.elsewhere(), depth), self.term(names.with_fiber(h), depth))


class QuietScript(Script):
    """A script of which nothing is written down: what its fibers do is seen by how they end and by the elements left. It waits for the
    first of two fibers, too, and gives what it learns."""

    def leaves(self, names):
        return super().leaves(names) + [self.either] * (2 if names.fibers else 0)

    def either(self, names, depth):
        x = self.name("x")
        return ("let", x, ("first", *self.draw.choices(names.fibers, k=2)), ("offer", "two", x))

    def log(self):
        return self.draw.choice([("cede",), ("pure", self.draw.randint(1, 9))])


def text_of(term):
    """The term as it is written."""
    word, *parts = term
    if word == "join":
        h, x, succeeded, e, errored, canceled = parts
        return f"(join {h} ({x} {text_of(succeeded)}) ({e} {text_of(errored)}) {text_of(canceled)})"
    if word == "bracketcase":
        x, acquire, used, y, success, z, failure, canceled = parts
        releases = f"({y} {text_of(success)}) ({z} {text_of(failure)}) {text_of(canceled)}"
        return f"(bracketcase {x} {text_of(acquire)} {text_of(used)} {releases})"
    written = (text_of(part) if isinstance(part, tuple) else str(part) for part in parts)
    return f"({' '.join([word, *written])})"


def script_text(main, capacities):
    queues = "".join(f"(queue {name} {capacity}) " for name, capacity in capacities.items())
    return f"{queues}(main {text_of(main)})"
