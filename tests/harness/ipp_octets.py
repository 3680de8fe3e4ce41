"""A model of RFC 8010: how many octets are a message, whether they need more octets, and whether they have a fault.

It is written from the RFC and from the promises of crates/ipp_codec, and is no copy of its code.
"""

LONGEST, MOST_VALUES, DEEPEST = 65_536, 4_096, 8
GROUPS = {0x01, 0x02, 0x04, 0x05, 0x06, 0x07, 0x08, 0x09, 0x0A}
BEGIN, END, MEMBER = 0x34, 0x37, 0x4A
EMPTY = range(0, 1)

# The lengths of the values of a tag (RFC 8010, 3.9; RFC 8011, 5.1). Each other tag has any octets.
LENGTHS = {
    0x10: EMPTY, 0x12: EMPTY, 0x13: EMPTY, 0x21: range(4, 5), 0x22: range(1, 2), 0x23: range(4, 5), 0x30: range(1_024),
    0x31: range(11, 12), 0x32: range(9, 10), 0x33: range(8, 9), BEGIN: EMPTY, 0x35: range(4, 1_091), 0x36: range(4, 323), END: EMPTY,
    0x41: range(1_024), 0x42: range(256), 0x44: range(1, 256), 0x45: range(1_024), 0x46: range(64), 0x47: range(64), 0x48: range(64),
    0x49: range(256), MEMBER: range(1, 256),
}
ASCII = {0x44, 0x45, 0x46, 0x47, 0x48, 0x49, MEMBER}
UTF_8 = {0x41, 0x42}


class Fault(Exception):
    """No octets after these make them a message."""


class Lacking(Exception):
    """The octets end within a message."""


def demand(holds):
    if not holds:
        raise Fault


class Octets:
    def __init__(self, octets):
        self.octets = octets
        self.at = 0

    def take(self, count):
        if len(self.octets) - self.at < count:
            raise Lacking
        self.at += count
        return self.octets[self.at - count : self.at]

    def number(self, lengths):
        """A length of two octets. Each octet is examined as it arrives."""
        high = self.take(1)[0]
        demand(high in range(lengths[0] // 256, lengths[-1] // 256 + 1))
        length = high * 256 + self.take(1)[0]
        demand(length in lengths)
        return length


def text(octets, is_ascii):
    try:
        octets.decode("ascii" if is_ascii else "utf-8")
    except UnicodeDecodeError:
        raise Fault from None


def localized(octets, most):
    """A natural language and a text, each after its length."""
    first = int.from_bytes(octets[:2], "big")
    second = int.from_bytes(octets[2 + first : 4 + first], "big")
    demand(len(octets) == 4 + first + second and first <= 63 and second <= most)
    text(octets[2 : 2 + first], True)
    text(octets[4 + first :], False)


def value(tag, octets):
    data = octets.take(octets.number(LENGTHS.get(tag, range(32_768))))
    if tag in ASCII or tag in UTF_8:
        text(data, tag in ASCII)
    elif tag == 0x22:
        demand(data[0] <= 1)
    elif tag == 0x35:
        localized(data, 1_023)
    elif tag == 0x36:
        localized(data, 255)


class Collections:
    """The collections that have begun in an attribute. Each awaits a member, a value of one, or any of both."""

    def __init__(self, before=None):
        self.awaits = list(before.awaits) if before else []

    def add(self, tag):
        inner = self.awaits[-1] if self.awaits else None
        demand(inner in ("member", "any") if tag in (MEMBER, END) else inner != "member")
        if tag == MEMBER:
            self.awaits[-1] = "value"
            return
        if tag == END:
            self.awaits.pop()
        if tag == BEGIN:
            demand(len(self.awaits) < DEEPEST)
            self.awaits.append("member")
        elif self.awaits:
            self.awaits[-1] = "any"


def message(octets):
    """The number of octets of the message at the front."""
    octets.take(8)
    is_group, collections, values = False, None, 0
    while True:
        tag = octets.take(1)[0]
        if tag < 0x10:
            demand(collections is None or not collections.awaits)
            if tag == 3:
                demand(values <= MOST_VALUES)
                return octets.at
            demand(tag in GROUPS)
            is_group, collections = True, None
            continue
        demand(is_group)
        after = Collections(collections)
        after.add(tag)
        length = octets.number(range(256))
        demand(length > 0 or collections is not None)
        if length > 0:
            demand(collections is None or not collections.awaits)
            text(octets.take(length), True)
        collections = after
        value(tag, octets)
        values += 1


def kind(octets):
    """0 for a message, 1 if the octets end within one, 2 for a fault."""
    try:
        message(Octets(octets[:LONGEST]))
        return 0
    except Lacking:
        return 1 if len(octets) < LONGEST else 2
    except Fault:
        return 2


def counts(all_octets):
    found = [0, 0, 0]
    for octets in all_octets:
        found[kind(octets)] += 1
    return "%d %d %d" % tuple(found)


def damaged(octets, count, seed):
    """Copies with one changed octet."""
    state = seed
    for _ in range(count):
        state = (state * 6_364_136_223_846_793_005 + 1_442_695_040_888_963_407) % 2**64
        copy = bytearray(octets)
        place = (state >> 33) % len(octets)
        copy[place] = (copy[place] + 1 + (state >> 57)) % 256
        yield bytes(copy)


def messages(octets):
    while octets:
        length = message(Octets(octets))
        yield octets[:length]
        octets = octets[length:]


def lines(octets, count, seed):
    """The lines that the program must print."""
    for one in messages(octets):
        cuts = counts(one[:end] for end in range(len(one)))
        yield f"{len(one)} true cuts {cuts} damaged {counts(damaged(one, count, seed))}"
