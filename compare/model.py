"""Document 01 once more, in another language: frames answered by plain lists and numbers. It covers what the Rust cannot be asked: names of any bytes, full
names (20), full reservations (21)."""

import struct

M = 2**63 - 1
TAG = 2**63


class Bad(Exception):
    pass


def amount(z):
    return struct.pack(">q", z)


def word(n):
    return struct.pack(">Q", n)


def named(a):
    return bytes([len(a)]) + a


class Reader:
    def __init__(self, data):
        self.data, self.at = data, 0

    def part(self, n):
        if len(self.data) - self.at < n:
            raise Bad
        self.at += n
        return self.data[self.at - n : self.at]

    def word(self):
        return struct.unpack(">Q", self.part(8))[0]

    def amount(self):
        return struct.unpack(">q", self.part(8))[0]

    def name(self):
        return self.part(self.part(1)[0])

    def snapshot(self):
        version, active = self.word(), self.word()
        (count,) = struct.unpack(">H", self.part(2))
        if count > 256:
            raise Bad
        rows = []
        for _ in range(count):
            rows.append((self.name(), self.amount(), self.amount(), self.amount(), self.amount()))
        return version, active, rows

    def end(self):
        if self.at != len(self.data):
            raise Bad


def row_conservation(row):
    name, initial, remaining, reserved, committed = row
    total = remaining + reserved + committed
    if not -TAG <= total <= M:
        return bytes([15])
    if total != initial:
        delta = total - initial
        return bytes([14]) + named(name) + amount(delta) if -TAG <= delta <= M else bytes([15])
    if remaining < 0:
        return bytes([14]) + named(name) + amount(remaining)
    return None


def conservation(rows):
    return next((e for e in map(row_conservation, rows) if e), None)


def validation(active, rows):
    if active > 0:
        return bytes([10]) + word(active)
    seen = set()
    for name, initial, remaining, reserved, committed in rows:
        if name in seen:
            return bytes([11]) + named(name)
        if reserved != 0:
            return bytes([12]) + named(name) + amount(reserved)
        for field, value in ((1, remaining), (2, initial), (3, committed)):
            if value < 0:
                return bytes([13]) + named(name) + bytes([field]) + amount(value)
        seen.add(name)
    return conservation(rows)


def totals(rows):
    initial, committed = sum(r[1] for r in rows), sum(r[4] for r in rows)
    fit = -TAG <= initial <= M and -TAG <= committed <= M
    return (fit, initial, committed) if fit else (fit, 0, 0)


def certificate(version, active, rows, since):
    fit, initial, committed = totals(rows)
    balanced = fit and conservation(rows) is None
    return (
        b"\0" + word(version) + word(len(rows)) + word(active) + bytes([balanced])
        + amount(initial) + amount(committed) + bytes([fit]) + amount(since)
    )


def snapshot_bytes(version, active, rows):
    out = word(version) + word(active) + struct.pack(">H", len(rows))
    for name, *amounts in rows:
        out += named(name) + b"".join(map(amount, amounts))
    return out


class Ledger:
    def __init__(self, names=256, reservations=1024):
        self.names, self.reservations = names, reservations
        self.accounts, self.limits, self.live = {}, {}, {}
        self.next_id, self.version, self.baseline = 1, 0, 0

    def held(self):
        return set(self.accounts) | set(self.limits)

    def full_for(self, name):
        return name not in self.held() and len(self.held()) >= self.names

    def ensure(self, name, z):
        if z < 0:
            return bytes([1]) + amount(z)
        if name in self.accounts:
            return b"\0"
        if self.full_for(name):
            return bytes([20])
        self.accounts[name] = [z, z, 0, 0]
        return b"\0"

    def top_up(self, name, z):
        if z <= 0:
            return bytes([2])
        if name not in self.accounts:
            return bytes([3])
        a = self.accounts[name]
        if a[0] + z > M:
            return bytes([4])
        a[0] += z
        a[1] += z
        return b"\0" + amount(z) + amount(a[0]) + amount(a[1])

    def limit(self, name, z):
        if z < 0:
            return bytes([1]) + amount(z)
        if z == 0:
            self.limits.pop(name, None)
            return b"\0"
        if self.full_for(name):
            return bytes([20])
        self.limits[name] = z
        return b"\0"

    def reserve(self, name, cost):
        if cost <= 0:
            return bytes([6]) + amount(0) + amount(cost)
        if name not in self.accounts:
            return bytes([3])
        a = self.accounts[name]
        if a[2] + cost > M:
            return bytes([4]) + amount(a[2])
        limit = self.limits.get(name, 0)
        if limit > 0 and a[2] + cost > limit:
            return bytes([5]) + amount(a[2]) + amount(limit)
        if self.next_id == M:
            return bytes([4]) + amount(a[2])
        if a[1] < cost:
            self.next_id += 1
            return bytes([6]) + amount(a[1]) + amount(cost)
        if len(self.live) >= self.reservations:
            return bytes([21])
        granted = self.next_id
        self.next_id += 1
        a[1] -= cost
        a[2] += cost
        self.live[granted] = (name, cost)
        return b"\0" + amount(a[1]) + word(granted)

    def commit(self, booking, actual):
        if actual < 0:
            return bytes([2])
        if booking not in self.live:
            return bytes([7])
        name, cost = self.live[booking]
        a = self.accounts[name]
        if a[3] + actual > M:
            return bytes([4]) + amount(a[1])
        delta = actual - cost
        if delta > a[1]:
            return bytes([8]) + amount(a[1])
        a[1] -= delta
        a[2] -= cost
        a[3] += actual
        del self.live[booking]
        return b"\0" + amount(a[1]) + amount(actual)

    def release(self, booking):
        if booking not in self.live:
            return bytes([7])
        name, cost = self.live.pop(booking)
        a = self.accounts[name]
        a[1] += cost
        a[2] -= cost
        return b"\0" + amount(a[1]) + amount(cost)

    def rows(self):
        return [(n, *self.accounts[n]) for n in sorted(self.accounts)]

    def take(self):
        self.next_id += 1
        self.version = TAG + self.next_id

    def snapshot(self):
        if self.next_id == M:
            return bytes([9])
        self.take()
        return b"\0" + snapshot_bytes(self.version, len(self.live), self.rows())

    def certify(self):
        if self.next_id == M:
            return bytes([9])
        self.take()
        fit, _, committed = totals(self.rows())
        since = 0
        if fit and committed > self.baseline:
            since = committed - self.baseline
            self.baseline = committed
        return certificate(self.version, len(self.live), self.rows(), since)

    def prove(self):
        if self.next_id == M:
            return bytes([9])
        self.take()
        fit, initial, committed = totals(self.rows())
        if not fit:
            return bytes([15])
        return (
            b"\0" + word(self.version) + word(len(self.accounts)) + word(len(self.live))
            + amount(initial) + amount(committed) + b"\1"
        )

    def restore(self, version, active, rows, recovery):
        if recovery:
            if version < TAG:
                return bytes([18])
            if version == TAG:
                return bytes([17]) + word(0)
        elif version <= TAG:
            return bytes([13, 0, 4]) + amount(min(version, M))
        refusal = validation(active, rows)
        if refusal:
            return refusal
        if len(rows) > self.names:
            return bytes([20])
        self.accounts = {r[0]: list(r[1:]) for r in rows}
        self.limits, self.live = {}, {}
        self.next_id, self.version = version - TAG, version
        self.baseline = min(sum(r[4] for r in rows), M)
        return b"\0"

    def frame(self, data):
        r = Reader(data)
        code = r.part(1)[0]
        if 1 <= code <= 4:
            name, z = r.name(), r.amount()
            r.end()
            if len(name) > 24:
                return bytes([19])
            return (self.ensure, self.top_up, self.limit, self.reserve)[code - 1](name, z)
        if code == 5:
            booking, z = r.word(), r.amount()
            r.end()
            return self.commit(booking, z)
        if code == 6:
            booking = r.word()
            r.end()
            return self.release(booking)
        if code in (7, 11, 13):
            r.end()
            return {7: self.snapshot, 11: self.certify, 13: self.prove}[code]()
        if code not in (8, 9, 10, 12, 14):
            raise Bad
        given = r.word() if code in (10, 12) else 0
        version, active, rows = r.snapshot()
        r.end()
        if any(len(row[0]) > 24 for row in rows):
            return bytes([19])
        if code in (8, 9):
            return self.restore(version, active, rows, code == 9)
        if code == 14:
            return conservation(rows) or b"\0"
        if code == 12:
            return certificate(version, active, rows, given - 2**64 if given >= TAG else given)
        if version >= TAG:
            return bytes([16])
        if given == 0 or given > M:
            return bytes([17]) + word(given)
        return validation(active, rows) or b"\0" + snapshot_bytes(TAG + given, active, rows)

    def line(self, text):
        """The answer line to a line of bytes without its line feed."""
        try:
            if len(text) > 29238 or len(text) % 2 or any(c not in b"0123456789abcdef" for c in text):
                raise Bad
            return self.frame(bytes.fromhex(text.decode())).hex()
        except Bad:
            return "17"
