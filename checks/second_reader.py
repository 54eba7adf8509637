"""A second reader of images of tables and of pairs, written from the format's description alone.

`read(form, data)` and `read_pair(data)` return tables and the length of the image, or raise Refused with the kind of the
first test that fails. `half` and `join` search with tables that were read. Nothing here is shared with the program.
"""

MAX_ID = 2147483646
LABELS = {"dense": b"rust-regex-automata-dfa-dense", "sparse": b"rust-regex-automata-dfa-sparse"}
PAIR_LABEL = b"rust-regex-automata-pair"
NO_NUMBER = 0xFFFFFFFF
EOI = 256
TEXT = 2


class Refused(Exception):
    """The image fails a test; `kind` is that of the first such test."""

    def __init__(self, kind):
        super().__init__(kind)
        self.kind = kind


def ensure(holds, kind="generic"):
    if not holds:
        raise Refused(kind)


class Fields:
    """The fields of an image, read one after another."""

    def __init__(self, data):
        self.data, self.at, self.order = data, 0, "little"

    def take(self, count):
        ensure(len(self.data) - self.at >= count, "buffer")
        self.at += count
        return self.data[self.at - count:self.at]

    def number(self, size=4):
        return int.from_bytes(self.take(size), self.order)

    def words(self, count):
        raw = self.take(4 * count)
        return [int.from_bytes(raw[4 * i:4 * i + 4], self.order) for i in range(count)]


class Table:
    """A table that was read: transitions (`next_id`), patterns, needles, start ids and settings."""


# ---- parts of both forms


def read_label(f, label):
    left = f.data[f.at:]
    text, nul, _ = left[:256].partition(b"\0")
    ensure(nul)
    size = (len(text) + 1 + 3) // 4 * 4
    ensure(len(left) >= size)
    ensure(text == label, "label")
    f.at += size


def read_order_and_version(f, version):
    word = f.number()
    ensure(word in (0xFEFF, 0xFFFE0000), "endian")
    f.order = "little" if word == 0xFEFF else "big"
    ensure(f.number() == version, "version")


def read_head(f, form):
    if form == "dense":
        while f.at < 7 and f.at < len(f.data) and f.data[f.at] == 0:
            f.at += 1
    read_label(f, LABELS[form])
    read_order_and_version(f, 2)
    f.number()
    return f.number()


def read_classes(f):
    return list(f.take(256))


def test_classes(classes):
    ensure(classes[0] == 0 and all(b - a in (0, 1) for a, b in zip(classes, classes[1:])))


def read_starts(f, t):
    t.kind = f.number()
    ensure(t.kind <= 2)
    t.contexts = list(f.take(256))
    ensure(max(t.contexts) <= 5)
    ensure(f.number() == 6)
    patterns = f.number()
    ensure(patterns == NO_NUMBER or patterns <= MAX_ID + 1)
    t.pattern_starts = None if patterns == NO_NUMBER else patterns
    t.universal = []
    for _ in range(2):
        row = f.number()
        ensure(row == NO_NUMBER or row <= MAX_ID, "state")
        t.universal.append(None if row == NO_NUMBER else row)
    t.start_ids = f.words(12 + 6 * (t.pattern_starts or 0))


def read_special(f, t, words):
    front = Fields(f.take(32))
    front.order = f.order
    ids = front.words(8)
    for number in ids:
        ensure(number <= MAX_ID, "state")
    t.max, t.quit = ids[:2]
    t.ranges = [tuple(ids[i:i + 2]) for i in (2, 4, 6)]
    for first, last in t.ranges:
        ensure((first == 0) == (last == 0) and first <= last)
        ensure(first == 0 or t.quit < first)
    (matches, _), (accels, _), (starts, _) = t.ranges
    ensure(not (matches and accels) or accels >= matches)
    ensure(not (matches and starts) or starts >= matches)
    ensure(not (accels and starts) or starts >= accels)
    ensure(t.max >= max([t.quit] + [last for _, last in t.ranges]))
    ensure(t.max < words)


def read_quit(f, t):
    halves = [f.number(16), f.number(16)]
    t.quit_bytes = {b for b in range(256) if halves[b // 128] >> (b % 128) & 1}


def is_in(span, number):
    return number != 0 and span[0] <= number <= span[1]


def close(t, ids):
    """The tests of all parts together. `ids` has the ids of the rows, in order."""
    ensure(len(ids) >= 2)
    ensure(ids[-1] <= MAX_ID)
    rows = set(ids)
    ensure(t.quit == ids[1])
    for number in [t.max] + [end for span in t.ranges for end in span]:
        ensure(number in rows)
    for number in ids:
        if number <= t.max:
            ensure(number in (0, t.quit) or any(is_in(span, number) for span in t.ranges))
    for number in t.start_ids:
        ensure(number in rows and not is_in(t.ranges[0], number) and number != t.quit)
    for number in t.universal:
        ensure(number is None or number in rows)
    units = [byte for byte in range(256) if byte == 0 or t.classes[byte] != t.classes[byte - 1]] + [EOI]
    for number in ids:
        targets = [t.next_id(number, unit) for unit in units]
        ensure(rows.issuperset(targets))
        ensure(number not in (0, t.quit) or set(targets) == {0})
        ensure(targets[-1] != t.quit)
        if is_in(t.ranges[1], number):
            ensure(t.needles(number) == bytes(b for b in range(256) if t.next_id(number, b) != number))
    t.rows, t.ids = len(ids), ids


# ---- dense


def read_dense(f):
    t = Table()
    t.flags = read_head(f, "dense")
    rows, stride2 = f.number(), f.number()
    t.classes = read_classes(f)
    test_classes(t.classes)
    ensure(1 <= stride2 <= 9)
    stride, alphabet = 1 << stride2, t.classes[255] + 2
    ensure(alphabet <= stride)
    raw = f.take(4 * rows * stride)
    order = f.order
    read_starts(f, t)
    count = f.number()
    slices = f.words(2 * count)
    t.pattern_len = f.number()
    ensure(t.pattern_len <= MAX_ID + 1)
    pattern_ids = f.words(f.number())
    read_special(f, t, rows * stride)
    count_of_accels = f.number()
    accels = f.take(8 * count_of_accels)
    read_quit(f, t)

    def word(at):
        return int.from_bytes(raw[4 * at:4 * at + 4], order)

    column = t.classes + [alphabet - 1]
    first_match, first_accel = t.ranges[0][0], t.ranges[1][0]
    t.next_id = lambda number, unit: word(number + column[unit])

    def needles(number):
        place = 8 * ((number - first_accel) // stride)
        return accels[place + 1:place + 1 + accels[place]]

    def patterns(number):
        place = (number - first_match) // stride
        return pattern_ids[slices[2 * place]:slices[2 * place] + slices[2 * place + 1]]

    t.needles, t.patterns = needles, patterns
    ids = [row * stride for row in range(rows)]
    for span, told in ((t.ranges[0], count), (t.ranges[1], count_of_accels)):
        ensure(span[0] % stride == 0 and span[1] % stride == 0)
        ensure(told == ((span[1] - span[0]) // stride + 1 if span[0] else 0))
    for i in range(count):
        offset, length = slices[2 * i], slices[2 * i + 1]
        ensure(offset < len(pattern_ids) and offset + length <= len(pattern_ids) and length > 0)
        ensure(all(k < t.pattern_len for k in pattern_ids[offset:offset + length]))
    for i in range(count_of_accels):
        ensure(1 <= accels[8 * i] <= 3)
    close(t, ids)
    return t


# ---- sparse


def read_sparse(f):
    t = Table()
    t.flags = read_head(f, "sparse")
    count, t.pattern_len = f.number(), f.number()
    t.classes = read_classes(f)
    ensure(t.pattern_len <= MAX_ID + 1)
    test_classes(t.classes)
    length = f.number()
    raw = f.take(length)
    read_starts(f, t)
    read_special(f, t, length)
    read_quit(f, t)
    rows, at, last_class = {}, 0, t.classes[255]
    while at < length:
        row = Fields(raw)
        row.at, row.order = at, f.order
        matches, accels, starts = (is_in(span, at) for span in t.ranges)
        ensure(at > t.max or at in (0, t.quit) or matches or accels or starts)
        head = row.number(2)
        n = head & 0x7FFF
        ensure(1 <= n <= 257)
        ensure(bool(head >> 15) == matches)
        pairs = row.take(2 * n)
        spans = [(pairs[2 * i], pairs[2 * i + 1]) for i in range(n)]
        before = -1
        for first, last in spans[:-1]:
            ensure(before < first <= last <= last_class)
            before = last
        ensure(spans[-1] == (0, 0))
        nexts = []
        ids = Fields(row.take(4 * n))
        ids.order = f.order
        for number in ids.words(n):
            ensure(number <= MAX_ID, "state")
            ensure(number <= length, "buffer")
            nexts.append(number)
        patterns = []
        if matches:
            told = row.number()
            ensure(told > 0)
            ids = Fields(row.take(4 * told))
            ids.order = f.order
            for number in ids.words(told):
                ensure(number <= MAX_ID, "pattern")
                ensure(number < t.pattern_len)
                patterns.append(number)
        ensure(row.at < length)
        told = row.take(1)[0]
        ensure(told <= 3 and (told > 0) == accels)
        needles = row.take(told)
        ensure(nexts[-1] != t.quit)
        ensure(row.at <= MAX_ID, "state")
        rows[at] = (spans[:-1], nexts, patterns, needles)
        at = row.at
    ensure(len(rows) == count)
    for _, nexts, _, _ in rows.values():
        ensure(all(number in rows for number in nexts))

    def next_id(number, unit):
        spans, nexts = rows[number][:2]
        if unit == EOI:
            return nexts[-1]
        for (first, last), target in zip(spans, nexts):
            if first <= t.classes[unit] <= last:
                return target
        return 0

    t.next_id = next_id
    t.patterns = lambda number: rows[number][2]
    t.needles = lambda number: rows[number][3]
    close(t, list(rows))
    return t


def read(form, data):
    """A table, and the length of its image."""
    f = Fields(data)
    t = read_dense(f) if form == "dense" else read_sparse(f)
    t.order = f.order
    return t, f.at


# ---- pairs


def pair_head(form, order):
    """The first 40 bytes of a pair's image."""
    words = (0xFEFF, 3, ("dense", "sparse").index(form))
    return PAIR_LABEL.ljust(28, b"\0") + b"".join(word.to_bytes(4, order) for word in words)


def read_pair(data):
    """The forward table, the reverse table, and the length of the image of both."""
    f = Fields(data)
    read_label(f, PAIR_LABEL)
    read_order_and_version(f, 3)
    number = f.number()
    ensure(number <= 1)
    tables = []
    for _ in range(2):
        t, size = read(("dense", "sparse")[number], data[f.at:])
        ensure(t.order == f.order)
        f.at += size
        tables.append(t)
    ensure(tables[0].pattern_len == tables[1].pattern_len)
    return tables[0], tables[1], f.at


def answer(form, data):
    """The line and the status of `check`. The form may be `pair`."""
    try:
        if form == "pair":
            forward, reverse, size = read_pair(data)
            return "ok %d %d %d %d" % (forward.rows, reverse.rows, forward.pattern_len, size), 0
        t, size = read(form, data)
    except Refused as refused:
        return "refused %s" % refused.kind, 1
    return "ok %d %d %d" % (t.rows, t.pattern_len, size), 0


# ---- searches: the result is None, a match, or an error's line


class Stop(Exception):
    """A search ends with an error, which has this line."""


def half(t, h, start, end, mode, forward):
    """The pattern and the offset that a half search reports. A mode is `no`, `yes` or a pattern's number."""
    if start > end:
        return None
    near = start - 1 if forward else end
    far = end if forward else start - 1
    if 0 <= near < len(h) and h[near] in t.quit_bytes:
        raise Stop("quit %02x %d" % (h[near], near))
    if mode == "no":
        supported, place = t.kind in (0, 1), 0
    elif mode == "yes":
        supported, place = t.kind in (0, 2), 6
    else:
        supported, place = t.pattern_starts is not None, 12 + 6 * mode
    if not supported:
        raise Stop("unsupported %s" % (mode if isinstance(mode, str) else "p%d" % mode))
    context = t.contexts[h[near]] if 0 <= near < len(h) else TEXT
    row = t.start_ids[place + context] if place < len(t.start_ids) else 0
    span = range(start, end) if forward else range(end - 1, start - 1, -1)
    units = [(h[at], at) for at in span]
    units.append((h[far], far) if 0 <= far < len(h) else (EOI, far))
    found = None
    for unit, at in units:
        row = t.next_id(row, unit)
        if row == 0:
            break
        if row == t.quit:
            raise Stop("quit %02x %d" % (unit, at))
        if is_in(t.ranges[0], row):
            found = (t.patterns(row)[0], at if forward else at + 1)
    return found


def join(forward, reverse, h, start, end, mode):
    """The line of a search by both tables."""
    try:
        found = half(forward, h, start, end, mode, True)
        if found is None:
            return "none"
        pattern, stop = found
        if stop == start or mode != "no" or forward.flags & 4:
            return "match %d %d %d" % (pattern, start, stop)
        back = half(reverse, h, start, stop, "yes", False)
        if back is None or back[0] != pattern:
            return "mismatch"
        return "match %d %d %d" % (pattern, back[1], stop)
    except Stop as stop:
        return str(stop)
