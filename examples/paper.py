"""The field, the row rules, padding, coding and the listing, worked out from the paper once more."""
M = 0x81
KINDS = {0x11: (3, 2), 0x12: (16, 240), 0x13: (32, 480)}
END = b"\x01"


# ---- the field

def times(a, b):
    p = 0
    while b:
        if b & 1:
            p ^= a
        a <<= 1
        if a & 0x100:
            a ^= 0x11B
        b >>= 1
    return p


TIMES = [bytes(times(q, b) for b in range(256)) for q in range(256)]
INVERSE = [0] + [next(b for b in range(1, 256) if times(a, b) == 1) for a in range(1, 256)]


def added(row, q, other):
    """row + q times other"""
    n = int.from_bytes(row, "big") ^ int.from_bytes(other.translate(TIMES[q]), "big")
    return n.to_bytes(len(row), "big")


# ---- the decoder: the three steps of the section 'Rows'

def take(rows, k, piece):
    rows = rows + [piece]
    n = len(rows)
    for i in range(n):
        if rows[i][i] == 0:
            below = [j for j in range(i + 1, n) if rows[j][i]]
            if not below:
                continue
            rows[i], rows[below[0]] = rows[below[0]], rows[i]
        for j in range(i + 1, n):
            rows[j] = added(rows[j], times(rows[j][i], INVERSE[rows[i][i]]), rows[i])
    for i in reversed(range(n)):
        if rows[i][i] == 0:
            continue
        for j in range(i):
            rows[j] = added(rows[j], times(rows[j][i], INVERSE[rows[i][i]]), rows[i])
        rows[i] = rows[i].translate(TIMES[INVERSE[rows[i][i]]])
    return [r for r in rows if any(r[:k])]


def recovered(rows, k):
    """The answer and the data."""
    if len(rows) != k:
        return 10, b""
    block = b"".join(r[k:] for r in rows)
    last = block.rfind(M)
    if last < 1 or any(block[last + 1:]):
        return 11, b""
    return 0, block[:last]


# ---- the listing

def listing(stream):
    lines = ["n answer rows taken"]
    at, seen, rows, n, taken, repeats = 0, None, [], 0, 0, 0
    while True:
        if at == len(stream):
            return lines + [f"stop 25 {at}"]
        kind = stream[at]
        if kind == 0x01:
            answer, data = recovered(rows, KINDS[seen][0]) if seen else (10, b"")
            return lines + [f"end {answer} {len(data)} {repeats}"] + ([data.hex()] if answer == 0 else [])
        if kind not in KINDS:
            return lines + [f"stop 24 {at}"]
        if seen not in (None, kind):
            return lines + [f"stop 26 {at}"]
        k, size = KINDS[kind]
        body = stream[at + 1:at + 1 + k + size]
        if len(body) < k + size:
            return lines + [f"stop 25 {at}"]
        seen, n, at = kind, n + 1, at + 1 + k + size
        if len(rows) == k:
            answer = 9
        elif taken == 65535:
            answer = 23
        else:
            before, rows, taken = len(rows), take(rows, k, body), taken + 1
            answer = 8 if len(rows) == before else 0
            repeats += answer == 8
        lines.append(f"{n} {answer} {len(rows)} {taken}")


# ---- blocks, pieces and records

def padded(kind, data):
    k, size = KINDS[kind]
    assert 0 < len(data) < k * size
    return data + bytes([M]) + bytes(k * size - len(data) - 1)


def coded(kind, block, vector):
    k, size = KINDS[kind]
    payload = bytes(size)
    for i in range(k):
        payload = added(payload, vector[i], block[i * size:(i + 1) * size])
    return bytes(vector) + payload


def record(kind, piece):
    return bytes([kind]) + piece
