"""The base names of pgcell: a cell that each accepts, and the faults of what damage makes of it.

All of it is written by hand from the lists of checks in docs/SPECIFICATION.md; nothing is computed as the library does.
"""
import subprocess
from dataclasses import dataclass

WAS_NULL, SIZE, UTF8, COUNT, KEY_LENGTH, DIMENSIONS = 2, 4, 5, 6, 7, 8
DECODE, TEXT_VERSION, FAMILY, NETMASK, ADDRESS_LENGTH, HOST_BITS, USER, FIELD_COUNT, FIELD_OID = 11, 14, 17, 18, 19, 20, 21, 22, 23

# What is damaged so is read.
READ = 0

# What a byte is replaced by, and what follows a cell. Four faults are those of these bytes.
BYTES = b"\x00\x7f\x80\xff"
ALL_READ = (READ,) * 4


@dataclass(frozen=True)
class Format:
    cell: bytes  # a cell that is accepted
    fronts: tuple  # of each proper front, from the empty one on, the fault, or READ
    replaced: tuple  # of each byte, the four faults of the cell in which another replaces it
    longer: tuple  # the four faults of the cell with one byte more
    has_arrays: bool = True

    @property
    def faults(self):
        """The faults that a damaged cell can have."""
        return {*self.fronts, *self.longer, *(it for faults in self.replaced for it in faults)} - {READ}


def runs(*counted):
    """Repeats each of some faults as often as its count says."""
    return tuple(it for count, faults in counted for it in [faults] * count)


def sized(cell, *counted, **more):
    """A format in which each proper front of the cell, and each longer cell, has another size than its checks want."""
    cell = bytes.fromhex(cell)
    replaced = runs(*counted) or runs((len(cell), ALL_READ))
    return Format(cell, (SIZE,) * len(cell), replaced, (SIZE,) * 4, **more)


def texts(version, other_version, **more):
    """A format of texts: `a`, U+E9 in two bytes, and U+1F600 in four; a front that ends in a character is no UTF-8."""
    fronts = (READ, READ, UTF8, READ, UTF8, UTF8, UTF8)
    last_byte = (1, (UTF8, UTF8, READ, UTF8))
    replaced = runs((1, ASCII), (1, (UTF8,) * 4), last_byte, (2, (UTF8,) * 4), (2, last_byte[1]))
    cell = bytes.fromhex("61c3a9f09f9880")
    return Format(version + cell, (*other_version, *fronts), (*[other_version * 4] * len(version), *replaced), ASCII, **more)


def bytes_of(cell, **more):
    """A format in which all bytes are a value."""
    return Format(cell, (READ,) * len(cell), runs((len(cell), ALL_READ)), ALL_READ, **more)


# A byte of 7 bits is a character; 80 and FF are none.
ASCII = (READ, READ, UTF8, UTF8)
# A byte that is 00 is another, and what it stands in is then too great.
TOO_GREAT = (READ, DECODE, DECODE, DECODE)
# The bytes of an integer of 4 bytes below 256 but its last one, where it counts, or is a length: what it says then is
# not there; and where it is the length of what NULL is refused in.
COUNT_BYTES = [(1, (READ, SIZE, COUNT, COUNT)), (2, (READ, SIZE, SIZE, SIZE))]
LENGTH_BYTES = [(1, (READ, SIZE, WAS_NULL, WAS_NULL)), (2, (READ, SIZE, SIZE, SIZE))]
KEY_LENGTH_BYTES = [(1, (READ, SIZE, KEY_LENGTH, KEY_LENGTH)), (2, (READ, SIZE, SIZE, SIZE))]
# The length of NULL, which is any negative one.
NULL_LENGTH = [(1, (SIZE, SIZE, READ, READ)), (3, ALL_READ)]
NO_SIZE = (1, (SIZE,) * 4)
# The header of an array: its dimensions; flags and OID, which no check looks at; the count of its elements; the lower bound.
HEADER = [
    (1, (READ, DIMENSIONS, COUNT, COUNT)), (2, (READ, DIMENSIONS, DIMENSIONS, DIMENSIONS)),
    (1, (SIZE, DIMENSIONS, DIMENSIONS, DIMENSIONS)), (8, ALL_READ), *COUNT_BYTES, NO_SIZE, (4, ALL_READ),
]
# The length of an element of two or four bytes, and it.
FIXED_ELEMENT = [*LENGTH_BYTES, NO_SIZE]
# Three of the four bytes of an OID are 00; an OID is compared.
OID_BYTES = [(3, (READ, FIELD_OID, FIELD_OID, FIELD_OID)), (1, (FIELD_OID,) * 4)]
FAMILY_BYTE, LENGTH_BYTE = (1, (FAMILY,) * 4), (1, (ADDRESS_LENGTH,) * 4)
NETMASK_V4 = (1, (READ, NETMASK, NETMASK, NETMASK))

FORMATS = {
    "bool": sized("01"),
    "char": sized("ff"),
    "int2": sized("fffe"),
    "int4": sized("075bcd15"),
    "int8": sized("112210f47de98115"),
    "oid": sized("000186a1"),
    "float4": sized("3fc00000"),
    "float8": sized("c002000000000000"),
    # -12345.67: three digits, the weight 1, the sign and the scale 2. 7F02 as a scale is too great, and 7F01 as a digit.
    "numeric": sized("0003000140000002000109291a2c",
                     (1, (READ, SIZE, SIZE, SIZE)), NO_SIZE, (2, ALL_READ), (1, (READ, USER, USER, USER)), (1, (READ, USER, USER, USER)),
                     (1, (READ, USER, USER, USER)), (1, ALL_READ), *[(1, (READ, USER, USER, USER)), (1, ALL_READ)] * 3),
    "text": texts(b"", ()),
    "varchar": texts(b"", ()),
    "bpchar": texts(b"", ()),
    "name": texts(b"", ()),
    "unknown": texts(b"", (), has_arrays=False),
    # The version comes first, so an empty cell has another.
    "ltree": texts(b"\1", (TEXT_VERSION,), has_arrays=False),
    "bytea": bytes_of(b"\xde\xad\0\xff"),
    # Of 11 and of 9 bits, the last of the two bytes with pad bits.
    "bit": sized("0000000bb760", *COUNT_BYTES, NO_SIZE, (2, ALL_READ)),
    "varbit": sized("00000009b700", *COUNT_BYTES, NO_SIZE, (2, ALL_READ)),
    "inet": sized("020800040a010203", FAMILY_BYTE, NETMASK_V4, (1, ALL_READ), LENGTH_BYTE, (4, ALL_READ)),
    "addr": sized("0340001020010db8000000000000000000000001",
                  FAMILY_BYTE, (1, (READ, READ, READ, NETMASK)), (1, ALL_READ), LENGTH_BYTE, (16, ALL_READ)),
    # With the netmask 0 the first byte is of the host.
    "cidr": sized("020800040a000000", FAMILY_BYTE, (1, (HOST_BITS, NETMASK, NETMASK, NETMASK)), (1, ALL_READ), LENGTH_BYTE,
                  (1, ALL_READ), (3, (READ, HOST_BITS, HOST_BITS, HOST_BITS))),
    "macaddr": sized("08002b010203"),
    "uuid": sized("a0eebc999c0b4ef8bb6d6bb9bd380a11"),
    "pg_lsn": sized("00000016b374d848"),
    # 1,000 days; FF in the first byte makes it -16,776,216, long before the year -9999.
    "date": sized("000003e8", (2, TOO_GREAT), (2, ALL_READ)),
    # Infinity; FFFFFFFF is a day before the epoch.
    "date_inf": sized("7fffffff", (1, (DECODE, READ, DECODE, READ)), (3, (DECODE, DECODE, DECODE, READ))),
    # The last microsecond of a day.
    "time": sized("000000141dd75fff", (5, TOO_GREAT), (1, (READ, READ, READ, DECODE)), (1, TOO_GREAT), (1, ALL_READ)),
    # With FF in the first byte it is 2,250 years earlier, and with FF in the second 2,300 years later.
    "timestamp": sized("0002b58341685e40", (1, (READ, DECODE, DECODE, READ)), (7, ALL_READ)),
    # -infinity; its first byte alone makes it the epoch, or 2,283 years before.
    "timestamp_inf": sized("8000000000000000", (1, (READ, DECODE, READ, READ)), (7, TOO_GREAT)),
    "timestamptz": sized("fffca2fec4c81fff", (1, (READ, DECODE, DECODE, READ)), (7, ALL_READ)),
    "interval": sized("00000000002dc6c00000000200000001"),
    "unix": sized("7fffff5bb3b29fff"),
    "unix_inf": sized("7fffffffffffffff"),
    "int2vector": sized("0000000100000000000000150000000200000000000000020001000000020002",
                        *HEADER, *FIXED_ELEMENT, (2, ALL_READ), *FIXED_ELEMENT, (2, ALL_READ), has_arrays=False),
    "oidvector": sized("00000001000000000000001a000000010000000000000004ffffffff",
                       *HEADER, *FIXED_ELEMENT, (4, ALL_READ), has_arrays=False),
    # a => b, cc => NULL. Where the value of `a` is NULL, the next length is 62000000.
    "hstore": sized("0000000200000001610000000162000000026363ffffffff",
                    *COUNT_BYTES, NO_SIZE, *KEY_LENGTH_BYTES, NO_SIZE, (1, ASCII), (3, (READ, SIZE, SIZE, SIZE)), NO_SIZE, (1, ASCII),
                    *KEY_LENGTH_BYTES, NO_SIZE, (2, ASCII), *NULL_LENGTH, has_arrays=False),
    # The name `nut`, which is not NULL, the supplier 7, and no price.
    "item": sized("0000000300000019000000036e757400000017000000040000000700000014ffffffff",
                  (3, (READ, FIELD_COUNT, FIELD_COUNT, FIELD_COUNT)), (1, (FIELD_COUNT,) * 4),
                  # (an empty name, and the OID that follows is 6E757400)
                  *OID_BYTES, *LENGTH_BYTES, (1, (FIELD_OID, SIZE, SIZE, SIZE)), (3, ASCII),
                  *OID_BYTES, *LENGTH_BYTES, NO_SIZE, (4, ALL_READ), *OID_BYTES, *NULL_LENGTH),
    # No front of a label is a label.
    "mood": Format(b"Happy", (USER,) * 5, runs((5, (USER, USER, UTF8, UTF8))), (USER, USER, UTF8, UTF8), has_arrays=False),
    "session": bytes_of(b"\xde\xad\0\xff", has_arrays=False),
}


def framed(cell):
    """The frame of a cell, of which None is NULL."""
    return b"\xff" * 4 if cell is None else len(cell).to_bytes(4, "big") + cell


def array(cells):
    """An array of one dimension, whose element type no check looks at."""
    return b"\0\0\0\1" + bytes(8) + len(cells).to_bytes(4, "big") + b"\0\0\0\1" + b"".join(map(framed, cells))


def array_format(element, *, is_nullable):
    """The format of arrays of two elements, or of one and NULL: each front ends in the header, or truncates an element."""
    cells = [element.cell, None if is_nullable else element.cell]
    # What NULL is refused for, or, where it is not, the bytes that follow it.
    null = SIZE if is_nullable else WAS_NULL
    length = [(1, (READ, SIZE, null, null)), (2, (READ, SIZE, SIZE, SIZE))]
    # (what follows an empty element is no element, but of a BYTEA, whose first byte is above 7F)
    empty = element.fronts[0] or SIZE
    first, last = (empty, SIZE, SIZE, SIZE), (empty, SIZE, SIZE, SIZE)
    if element.fronts[0] == READ and element.cell[0] > 0x7f:
        first = (null, SIZE, SIZE, SIZE)
    one = [*runs(*HEADER, *length, (1, first)), *element.replaced]
    other = runs(*NULL_LENGTH) if is_nullable else [*runs(*length, (1, last)), *element.replaced]
    cell = array(cells)
    return Format(cell, (SIZE,) * len(cell), (*one, *other), (SIZE,) * 4)


def forms():
    """Each name, a base name in each of its forms, with its format."""
    for base, it in FORMATS.items():
        yield base, it
        yield f"{base}?", it
        if it.has_arrays:
            yield f"{base}[]", array_format(it, is_nullable=False)
            yield f"{base}?[]", array_format(it, is_nullable=True)


class Difference(Exception):
    """An answer that is not one that it may be."""


def answers(program, lines):
    """Returns the program's answer to each line."""
    text = b"".join(line + b"\n" for line in lines)
    ran = subprocess.run([program], input=text, stdout=subprocess.PIPE, check=False)
    found = ran.stdout.split(b"\n")
    if found.pop() or len(found) != len(lines) or ran.returncode:
        raise Difference(f"{len(found)} answers to {len(lines)} lines, and status {ran.returncode}")
    return found
