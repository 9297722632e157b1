"""Lists of changes that are reduced by columns of records where there are too many: "Reduced entries" of crates/run_page/page/DATA.md."""


class Pool:
    """The lists that share their room: the longest is reduced where an entry has none. Those that are first are reduced first."""

    def __init__(self, most):
        self.most, self.lists, self.count = most, [], 0

    def make_room(self):
        while self.count > self.most:
            longest = max(self.lists, key=lambda each: len(each.entries))
            if len(longest.entries) <= 2:
                return
            self.count -= len(longest.entries)
            longest.halve()
            self.count += len(longest.entries)


class Changes:
    """A list of a pool. `join` takes what several entries say to what one reduced entry says."""

    def __init__(self, pool, join):
        self.pool, self.join, self.width = pool, join, 1
        self.entries = []  # (record, time, what, changes)
        self.now = None
        pool.lists.append(self)

    def add(self, record, time, what):
        if self.entries and what == self.now:
            return
        self.now = what
        before = len(self.entries)
        self.push((record, time, what, 1))
        self.pool.count += len(self.entries) - before
        self.pool.make_room()

    def halve(self):
        most = max(2, len(self.entries) // 2)
        while len(self.entries) > most:
            self.width *= 2
            entries, self.entries = self.entries, []
            for entry in entries:
                self.push(entry)

    def push(self, entry):
        """Behind the entries of its column: of three the first two become one."""
        column = [each for each in self.entries[-2:] if self.column(each) == self.column(entry)]
        if len(column) == 2:
            (record, time, one, count), (_, _, other, more) = column
            self.entries[-2:] = [(record, time, self.join(one, other), count + more)]
        self.entries.append(entry)

    def column(self, entry):
        return (entry[0] - 1) // self.width

    def written(self):
        return [[record, time, *what, *([changes] if changes > 1 else [])] for record, time, what, changes in self.entries]


def joined_bits(one, other):
    return tuple(a | b for a, b in zip(one, other))


def joined_values(one, other):
    """The least and the greatest. One entry has (value,), a reduced one (low, high)."""
    known = [value for value in one + other if value is not None]
    return (min(known), max(known)) if known else (None, None)


class Ends:
    """The first and the last so many items, and how many are between them."""

    def __init__(self, most):
        self.half = most // 2
        self.first, self.last, self.left = [], [], []

    def add(self, item, record):
        if len(self.first) < self.half:
            self.first.append(item)
            return
        self.last.append((item, record))
        if len(self.last) > self.half:
            _, out = self.last.pop(0)
            self.left = [self.left[0] + 1, self.left[1], out] if self.left else [1, out, out]

    def items(self):
        return self.first + [item for item, _ in self.last]

    def left_out(self):
        return self.left or None
