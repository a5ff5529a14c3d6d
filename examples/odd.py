"""The odd streams: cut, mixed and unlisted records at each place, repeats, what comes after completion, broken padding, zero coefficients.

A stream is a list of parts. The text of `cases` has, for each stream, a line `== name`, a line `< bytes` for each part, in hexadecimal, where
00*480 is 480 of them, and the lines that `setjoin` prints."""
from itertools import groupby, permutations
from paper import END, KINDS, M, coded, listing, padded, record


def size_of(kind):
    return "{} x {}".format(*KINDS[kind])


def unit(kind, at):
    return bytes(int(i == at) for i in range(KINDS[kind][0]))


def piece(kind, at, payload=b""):
    """A piece with one coefficient 1, or with none where `at` is None; the payload is filled up with zeros."""
    return record(kind, unit(kind, at) + payload + bytes(KINDS[kind][1] - len(payload)))


def filling(kind, block):
    """The pieces that carry a block one to one. It may break the padding rule."""
    k, size = KINDS[kind]
    block = block + bytes(k * size - len(block))
    return [record(kind, coded(kind, block, unit(kind, i))) for i in range(k)]


def marked(*data):
    return bytes(data) + bytes([M])


def cut():
    yield "no byte", []
    yield "the end alone", [END]
    yield "the end twice", [END, END]
    for kind in KINDS:
        first, size = piece(kind, 0, b"a"), size_of(kind)
        places = [1, sum(KINDS[kind])] if kind != 0x11 else range(1, 6)
        for at in places:
            yield f"{size}: the first record cut after {at}", [first[:at]]
            yield f"{size}: the second record cut after {at}", [first, first[:at]]
        yield f"{size}: no end record", [first]
        yield f"{size}: the end in the place of a body's last byte", [first[:-1] + END]
        yield f"{size}: bytes behind the end", [first, END, first, b"\x14"]
        yield f"{size}: complete, then cut", filling(kind, marked(0x61)) + [first[:-1]]


def mixed():
    for kind, other in permutations(KINDS, 2):
        first, second = piece(kind, 0, b"a"), piece(other, 0, b"a")
        sizes = f"{size_of(kind)}, then {size_of(other)}"
        yield f"{sizes}: its kind alone", [first, second[:1]]
        yield f"{sizes}: a byte short", [first, second[:-1]]
        yield f"{sizes}: whole", [first, second, END]
    yield "complete, then another size", filling(0x11, marked(0x61)) + [b"\x13"]
    yield "the first size again after another", [piece(0x11, 0), b"\x12", piece(0x11, 0), END]


def unlisted():
    for byte in [0x00, 0x02, 0x10, 0x14, 0x21, 0x22, 0x23, 0x91, 0xff]:
        yield f"kind {byte:02x} first", [bytes([byte]), END]
    for kind in KINDS:
        yield f"{size_of(kind)}: kind 21 in the middle", [piece(kind, 0, b"a"), b"\x21", piece(kind, 1), END]
        yield f"{size_of(kind)}: complete, then kind 00", filling(kind, marked(0x61)) + [b"\x00", END]


def rows_that_fall():
    for kind, (k, _) in KINDS.items():
        size = size_of(kind)
        yield f"{size}: the third unit vector three times", [piece(kind, 2, b"a")] * 3 + [END]
        yield f"{size}: the last unit vector {k} times", [piece(kind, k - 1, b"a")] * k + [END]
        yield f"{size}: the last twice, then the one before it", [piece(kind, k - 1, b"a")] * 2 + [piece(kind, k - 2, b"b"), END]
        yield f"{size}: the first unit vector three times", [piece(kind, 0, b"a")] * 3 + [END]
        yield f"{size}: zero coefficients", [piece(kind, None), piece(kind, 0, b"a"), piece(kind, None, b"ab"), END]
        yield f"{size}: in reverse, then again", list(reversed(filling(kind, marked(0x61)))) + [piece(kind, 0), piece(kind, None), END]
    untrue = [piece(0x11, 2, marked(byte)) for byte in b"xyz"]
    yield "three times with other payloads", untrue + [piece(0x11, 1, b"cd"), piece(0x11, 0, b"ab"), END]
    block = padded(0x11, b"abc")
    vectors = [(0, 0, 2), (0, 0, 3), (0, 5, 1), (0, 5, 0), (7, 0, 0), (7, 5, 1)]
    yield "multiples and sums of earlier ones", [record(0x11, coded(0x11, block, v)) for v in vectors] + [END]


def padding():
    for kind, (k, length) in KINDS.items():
        size, whole = size_of(kind), k * length
        yield f"{size}: no marker", filling(kind, b"a") + [END]
        yield f"{size}: the only marker first", filling(kind, marked()) + [END]
        yield f"{size}: a byte behind the marker", filling(kind, marked(0x61) + bytes(whole - 3) + b"b") + [END]
    yield "a marker before the last is data", filling(0x11, marked(0x61, M, 0x62)) + [END]
    yield "a marker first, and a second one", filling(0x11, marked(M)) + [END]
    yield "the marker in the last byte", filling(0x11, marked(*b"abcde")) + [END]
    yield "a block of zeros", filling(0x11, b"") + [END]


def in_hex(part):
    runs = [(f"{byte:02x}", len(list(same))) for byte, same in groupby(part)]
    return " ".join(f"{byte}*{n}" if n > 3 else " ".join([byte] * n) for byte, n in runs)


def cases():
    lines = []
    for streams in (cut, mixed, unlisted, rows_that_fall, padding):
        for name, parts in streams():
            lines += [f"== {name}"] + [f"< {in_hex(part)}" for part in parts] + listing(b"".join(parts))
    return "\n".join(lines) + "\n"
