"""Random cells of pgcell's names: each by the grammar of its base name, and every other one damaged.

The names and their faults stand in scripts/formats.py.
"""
from formats import FORMATS, SIZE, array, array_format, framed

# What texts are joined of: characters of one to four bytes, and sometimes bytes that are none.
CHARACTERS = [b"a", b"Z", b" ", b"\0", b"\x7f", "é".encode(), "ß".encode(), "日".encode(), "\U0001f600".encode()]
NO_CHARACTERS = [b"\x80", b"\xc0\x80", b"\xed\xa0\x80", b"\xf4\x90\x80\x80", b"\xff", b"\xe6\x97"]

# Counts and lengths that are near a limit.
EDGES = [b"\0\0\0\0", b"\x7f\xff\xff\xff", b"\x80\0\0\0", b"\xff\xff\xff\xff", b"\0\0\0\1", b"\0\0\0\2"]

# The widths of what has one width and no other check.
WIDTHS = {base: len(it.cell) for base, it in FORMATS.items() if it.faults == {SIZE}}

# The least and the greatest count of dates and timestamps.
COUNTS = {"date": (4, -4_382_544, 2_921_939), "time": (8, 0, 86_399_999_999),
          "timestamp": (8, -378_651_801_600_000_000, 252_455_615_999_999_999)}
COUNTS |= {"date_inf": COUNTS["date"], "timestamp_inf": COUNTS["timestamp"], "timestamptz": COUNTS["timestamp"]}


def make_text(r):
    parts = r.choices(CHARACTERS, k=r.randrange(12))
    if r.random() < 0.1:
        parts.insert(r.randrange(len(parts) + 1), r.choice(NO_CHARACTERS))
    return b"".join(parts)


def make_bits(r):
    count = r.choice((r.randrange(70), r.randrange(9)))
    return count.to_bytes(4, "big") + r.randbytes((count + 7) // 8)


def make_address(r):
    family, width = r.choice(((2, 4), (3, 16)))
    netmask = r.randrange(8 * width + 1)
    address = int.from_bytes(r.randbytes(width), "big")
    if r.random() < 0.8:
        address = address >> (8 * width - netmask) << (8 * width - netmask)
    return bytes((family, netmask, r.getrandbits(1), width)) + address.to_bytes(width, "big")


def make_count(r, width, least, greatest):
    """A count of days or microseconds, often near the least or the greatest one, or any count."""
    chance = r.random()
    if chance < 0.1:
        return r.randbytes(width)
    if chance < 0.3:
        return (r.choice((least, greatest)) + r.randrange(-2, 3)).to_bytes(width, "big", signed=True)
    if chance < 0.4:
        return r.choice((b"\x7f" + b"\xff" * (width - 1), b"\x80" + bytes(width - 1)))
    return r.randrange(least, greatest + 1).to_bytes(width, "big", signed=True)


def make_numeric(r):
    """A number, NaN or an infinity, of few digits, which have zeros at either end and lie around its scale."""
    digits = [r.choice((0, 1, 9999, 5000, r.randrange(10_000))) for _ in range(r.randrange(7))]
    sign = r.choice((0, 0, 0x4000, 0x4000, 0xC000, 0xD000, 0xF000))
    scale = r.choice((r.randrange(20), r.randrange(16_384), 16_383))
    weight = r.choice((r.randrange(-6, 6), r.randrange(-4_100, -4_080), r.randrange(-32_768, 32_768)))
    if r.random() < 0.1:
        digits.append(r.randrange(10_000, 65_536))
    head = (len(digits), weight % 65_536, sign, scale if r.random() < 0.95 else r.randrange(16_384, 65_536))
    return b"".join(it.to_bytes(2, "big") for it in (*head, *digits))


def make_map(r):
    count = r.randrange(5)
    value = lambda: None if r.random() < 0.3 else make_text(r)
    return count.to_bytes(4, "big") + b"".join(framed(make_text(r)) + framed(value()) for _ in range(count))


def make_cell(r, base):
    """A cell by the grammar of the base name, or nearly so."""
    if base in WIDTHS:
        return r.randbytes(WIDTHS[base])
    if base in COUNTS:
        return make_count(r, *COUNTS[base])
    if base in ("bit", "varbit"):
        return make_bits(r)
    if base in ("inet", "addr", "cidr"):
        return make_address(r)
    if base == "numeric":
        return make_numeric(r)
    if base in ("bytea", "session"):
        return r.randbytes(r.randrange(20))
    if base == "ltree":
        return b"\1" + make_text(r)
    if base == "hstore":
        return make_map(r)
    if base == "item":
        price = r.choice((b"\xff" * 4, framed(r.randbytes(8))))
        return b"\0\0\0\3" + b"\0\0\0\x19" + framed(make_text(r)) + b"\0\0\0\x17" + framed(r.randbytes(4)) + b"\0\0\0\x14" + price
    if base == "mood":
        return r.choice((b"Sad", b"Ok", b"Happy"))
    if base in ("int2vector", "oidvector"):
        return make_array(r, "int2" if base == "int2vector" else "oid", 0.02)
    return make_text(r)


def make_array(r, base, nulls):
    if r.random() < 0.05:
        return bytes(8) + r.randbytes(4)
    return array([None if r.random() < nulls else make_cell(r, base) for _ in range(r.randrange(5))])


def damage(r, cell):
    """The cell truncated, lengthened, or with bytes replaced or left out."""
    place = r.randrange(len(cell) + 1)
    kind = r.randrange(6)
    if kind == 0:
        return cell[:place]
    if kind == 1:
        return cell + r.randbytes(r.randrange(1, 5))
    if kind == 2:
        return cell[:place] + r.choice((b"\0", b"\x7f", b"\x80", b"\xff")) + cell[place + 1:]
    if kind == 3:
        place -= place % 4
        return cell[:place] + r.choice(EDGES) + cell[place + 4:]
    if kind == 4:
        return cell[:place] + r.randbytes(1) + cell[place:]
    return cell[:place] + cell[place + r.randrange(1, 5):]


def digits(r, cell):
    text = cell.hex()
    return (text.upper() if r.random() < 0.1 else text) or "-"


def make_pairs(r, count, bases=tuple(FORMATS)):
    """Random cells of base names: each with a name and as an option, and the answers that refuse it, or None where it is none."""
    refusals = {base: make_refusals(it.faults) for base, it in FORMATS.items()}
    of_arrays = {base: make_refusals(array_format(it, is_nullable=True).faults) for base, it in FORMATS.items()}
    for _ in range(count):
        base = r.choice(bases)
        is_array = FORMATS[base].has_arrays and r.random() < 0.4
        cell = make_array(r, base, 0.15) if is_array else make_cell(r, base)
        if r.random() < 0.5:
            cell = damage(r, cell)
        text = "NULL" if r.random() < 0.002 else digits(r, cell)
        mark, faults = ("[]", of_arrays[base]) if is_array else ("", refusals[base])
        if r.random() < 0.02:
            text, faults = text[:-1], None
        option = "?[]" if is_array else "?"
        yield f"{base}{mark} {text}".encode(), f"{base}{option} {text}".encode(), faults


def make_refusals(faults):
    return frozenset(b"refused %d" % it for it in faults)
