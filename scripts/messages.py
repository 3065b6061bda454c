"""The messages that a server sends, taken apart and joined anew. For scripts/over-socket and scripts/server-test."""

# The tag of a CopyData message, and the length of a tag and the length after it.
COPY_DATA, HEADER = b"d", 5
# The lengths of the data of a CopyData message.
LENGTHS = [0, 1, 3, 7, 40, 1_000, 5_000]
# A message of each kind that a server does not send to a session without a password: its tag and its body.
OTHERS = [
    *((b"R", bytes([0, 0, 0, code]) + body) for code, body in (
        (2, b""), (3, b""), (5, b"salt"), (7, b""), (8, b"token"), (9, b""), (10, b"SCRAM-SHA-256\0\0"), (11, b"r=1,s=2,i=3"), (12, b"v=1"))),
    (b"3", b""),
    (b"A", b"\0\0\0\7channel\0payload\0"),
    (b"I", b""),
    (b"N", b"SNOTICE\0VNOTICE\0C00000\0Mready\0\0"),
    (b"V", b"\0\0\0\2ja"),
    (b"W", b"\1\0\2\0\1\0\1"),
    (b"n", b""),
    (b"s", b""),
    (b"v", b"\0\3\0\0\0\0\0\1option\0"),
]


def messages(parts):
    """Yields the messages of these parts, each with its tag and its length."""
    left = b""
    for part in parts:
        left += part
        while len(left) >= HEADER and len(left) > (length := int.from_bytes(left[1:HEADER], "big")):
            yield left[: length + 1]
            left = left[length + 1 :]


def framed(tag, body=b""):
    return tag + (len(body) + 4).to_bytes(4, "big") + body


def copy_data(data):
    return framed(COPY_DATA, data)


def split_again(parts, chance):
    """Yields the same messages, and the same data in other CopyData messages, in parts of random lengths."""
    data = b""
    for message in messages(parts):
        if message[:1] == COPY_DATA:
            data += message[HEADER:]
            size = chance.choice(LENGTHS)
            if size > len(data):
                continue
            message, data = copy_data(data[:size]), data[size:]
        elif data:
            message, data = copy_data(data) + message, b""
        at = chance.randrange(len(message))
        yield message[:at]
        yield message[at:]


def with_others(stream):
    """Returns the stream with the messages of the other kinds before the first ReadyForQuery, where a client passes over them."""
    at = 0
    for message in messages([stream]):
        if message[:1] == b"Z":
            break
        at += len(message)
    return stream[:at] + b"".join(framed(tag, body) for tag, body in OTHERS) + stream[at:]


def kind_of(message):
    """Returns the tag of a message, and the code of a request for authentication."""
    return message[: HEADER + 4] if message[:1] == b"R" else message[:1]


def damaged(stream):
    """Yields the stream truncated, and with a byte altered, at each byte of the first message of each kind: whether it is truncated, and
    the bytes."""
    at, seen = 0, set()
    for message in messages([stream]):
        if kind_of(message) not in seen:
            seen.add(kind_of(message))
            for place in range(at, at + len(message)):
                altered = (stream[place] + 1 + place % 255) % 256
                yield True, stream[:place]
                yield False, stream[:place] + bytes([altered]) + stream[place + 1 :]
        at += len(message)
