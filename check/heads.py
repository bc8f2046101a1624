"""Random and hostile targets and heads. Only `server.py` says what is right."""
from __future__ import annotations

from collections.abc import Callable, Sequence
from dataclasses import dataclass
from random import Random

import server
from cases import box_text, chance, draw_levels, draw_region, name, odd_number
from reference import Header

# Targets


@dataclass
class Form:
    """The parts of a target: the path, and names and values before they are encoded."""
    path: bytes
    pairs: list[tuple[bytes, bytes]]

    def put(self, name: bytes, value: bytes) -> None:
        """Gives a parameter another value, or a value where it had none."""
        self.drop(name)
        self.pairs.append((name, value))

    def drop(self, name: bytes) -> None:
        """Takes a parameter away."""
        self.pairs = [pair for pair in self.pairs if pair[0] != name]

    def text(self, random: Random) -> bytes:
        """The target."""
        pieces = [encoded(random, name) + b"=" + encoded(random, value) for name, value in self.pairs]
        if chance(random, 5):
            pieces.insert(random.randint(0, len(pieces)), b"")
        return self.path + b"?" + b"&".join(pieces)


def encoded(random: Random, text: bytes) -> bytes:
    """A name or a value as a form may write it."""
    written = b""
    for byte in text:
        if byte == ord(" "):
            written += random.choice([b"+", b"%20"])
        elif byte in b"&=+%" or not 0x20 < byte < 0x7F or chance(random, 2):
            written += random.choice([b"%%%02x", b"%%%02X"]) % byte
        else:
            written += bytes([byte])
    return written


def right_form(random: Random, header: Header, dataset: bytes, steps: Sequence[int]) -> Form:
    """The parts of a target that has no fault."""
    region = draw_region(random, header.box)
    low, high = draw_levels(random, len(header.mask))
    step = random.choice(steps)
    form = Form(b"/mod_visus", [(b"action", b"boxquery"), (b"dataset", dataset)])
    form.pairs.append((b"box", box_text(random, region, b" \t")))
    others = [
        (b"time", odd_number(random, step) + random.choice([b"", b"", b".0", b".000"])),
        (b"field", random.choice(header.fields).name),
        (b"fromh", odd_number(random, low)),
        (b"toh", odd_number(random, high)),
        (b"maxh", odd_number(random, len(header.mask))),
        (b"compression", random.choice([b"", b"raw"])),
        (b"note", random.choice([b"", b"x y", b"\xc3\xa9", b"%", b"a=b"])),
        (b"note", b""),
    ]
    form.pairs += [pair for pair in others if chance(random, 60)]
    random.shuffle(form.pairs)
    return form


Spoil = Callable[[Random, Header, Form], None]


def other_path(random: Random, _: Header, form: Form) -> None:
    """Another path."""
    form.path = random.choice([b"/", b"*", b"/mod%5Fvisus", b"/mod_visus/", b"/MOD_VISUS", b"//mod_visus", b"mod_visus",
                               b"http://127.0.0.1/mod_visus", b"/mod_visus;a", b"/mod_visus#", b"/mod_visus\xc3\xa9"])


def bad_text(random: Random, _: Header, form: Form) -> None:
    """Bytes that are not UTF-8, or the character that stands for them."""
    wrong = [b"\xff", b"a\xc3", b"\xed\xa0\x80", b"\xc0\xaf", "\ufffd".encode(), b"\xf4\x90\x80\x80"]
    pair = random.choice([(b"note", random.choice(wrong)), (random.choice(wrong), b"")])
    form.pairs.insert(random.randint(0, len(form.pairs)), pair)


def double_parameter(random: Random, _: Header, form: Form) -> None:
    """A parameter that stands twice."""
    pair = random.choice([pair for pair in form.pairs if pair[0] in server.PARAMETERS] or [(b"maxh", b"1")])
    form.pairs += [pair, (pair[0], random.choice([pair[1], b"", b"0"]))]


def without(parameter: bytes) -> Spoil:
    """A parameter that is missing."""
    return lambda _random, _header, form: form.drop(parameter)


def with_value(parameter: bytes, values: Sequence[bytes]) -> Spoil:
    """A parameter with another value."""
    return lambda random, _header, form: form.put(parameter, random.choice(values))


def other_dataset(random: Random, _: Header, form: Form) -> None:
    """The name of another dataset."""
    own = dict(form.pairs).get(b"dataset", b"v")
    others = [own + b".idx", b"", own.swapcase() + b"x", own + b" ", b"./" + own, own[:-1]]
    form.put(b"dataset", random.choice(others))


def bad_box(random: Random, header: Header, form: Form) -> None:
    """A box that is missing or is none, or has other axes."""
    box = b" ".join(b"%d %d" % pair for pair in header.box)
    values = [b"", box + b" 0 0", box + b" 0 0 0 0 0 0", box[:-1] + b"x", box.replace(b" ", b","), box + b" 0", b"0 3",
              b"5 4 " + box.split(b" ", 2)[2], b"0 %d " % 2**40 + box.split(b" ", 2)[2], b"\xc2\xa0" + box,
              b"-" + box, b"0 " + b"0" * 20 + b" 0 3", box + b"\n", b"0 1048575 " * len(header.box)]
    if chance(random, 15):
        form.drop(b"box")
    else:
        form.put(b"box", random.choice(values))


def bad_levels(random: Random, header: Header, form: Form) -> None:
    """Levels that are none, or another number of them."""
    most = len(header.mask)
    wrong = [b"", b"x", b"-1", b"+1", b"1.0", b" 1", b"4294967296", b"9" * 19, b"9" * 20, b"0" * 20]
    parameter = random.choice([b"fromh", b"toh", b"maxh"])
    more = [b"%d" % (most + 1), b"%d" % (most - 1), b"0"] if parameter == b"maxh" else []
    form.put(parameter, random.choice(wrong + more))


SPOILS: list[Spoil] = [
    other_path, bad_text, double_parameter, without(b"action"),
    with_value(b"action", [b"", b"Boxquery", b"boxquery ", b"range", b"pointquery"]), without(b"dataset"),
    other_dataset,
    with_value(b"compression", [b"zip", b"RAW", b"raw ", b"none", b"\0"]),
    with_value(b"field", [b"", b"nofield", b" a", b"\xc3\xa9"]),
    with_value(b"time", [b"", b"5.", b".0", b"5.5", b"-1", b"+1", b"1e3", b"5.00a", b"9" * 20, b" 5", b"5 ", b"0" * 20,
                         b"5.0.0", b"\xd9\xa1"]),
    bad_box, bad_levels,
]
"""What makes each fault of a target, in the order of the table."""


def outside_form(random: Random, header: Header, form: Form) -> None:
    """A box that may leave that of the dataset, or levels that it does not have."""
    most = len(header.mask)
    box = [(low, high + random.choice([0, 0, 1, 70])) for low, high in header.box]
    form.put(b"box", b" ".join(b"%d %d" % pair for pair in box))
    levels = random.choice([(0, most), (1, 0), (0, most + 1), (most + 1, most + 1), (0, 2**32 - 1), (2**32 - 1, 0)])
    form.put(b"fromh", b"%d" % levels[0])
    form.put(b"toh", b"%d" % levels[1])


def other_time(random: Random, header: Header, form: Form) -> None:
    """A step that may not stand, or that the header may not have."""
    first = header.time.first if header.time else 0
    form.put(b"time", b"%d" % random.choice([0, first, first + 1, first + 2, first + 5000, 2**32, 10**19 - 1]))


def draw_target(random: Random, header: Header, dataset: bytes, steps: Sequence[int]) -> bytes:
    """A target, mostly one without a fault."""
    form = right_form(random, header, dataset, steps)
    spoil = random.randrange(12)
    if spoil == 0:
        outside_form(random, header, form)
    elif spoil == 1:
        other_time(random, header, form)
    elif spoil == 2:
        random.choice(SPOILS)(random, header, form)
    return form.text(random)


# Heads


CURL = [b"Host: 127.0.0.1", b"User-Agent: curl/7.88.1", b"Accept: */*"]


def plain_head(target: bytes) -> bytes:
    """A head as a program would send it."""
    return b"GET " + target + b" HTTP/1.1\r\nHost: 127.0.0.1\r\n\r\n"


def lay_out_head(random: Random, first: bytes, fields: Sequence[bytes]) -> bytes:
    """The lines of a head with their ends, now and then with blank lines before it."""
    ends = random.choice([[b"\r\n"], [b"\r\n"], [b"\n"], [b"\r\n", b"\n"]])
    before = [b""] * random.choice([0, 0, 0, 0, 1, 3])
    return b"".join(line + random.choice(ends) for line in [*before, first, *fields, b""])


def draw_fields(random: Random) -> list[bytes]:
    """Fields that change nothing."""
    fields = random.sample(CURL, random.randint(0, 3))
    more = [b"Connection: keep-alive", b"Content-Length: 0", b"content-length:\t000", b"Cookie: \xff\xfe; a=b", b"X:",
            name(random) + b": \t " + name(random) + b" ", b"Connection: closed, x", b"Accept-Encoding: gzip, br"]
    return fields + random.sample(more, random.choice([0, 0, 1, 3]))


def draw_head(random: Random, target: bytes) -> bytes:
    """A right head."""
    return lay_out_head(random, b"GET " + target + b" HTTP/1.1", draw_fields(random))


def body_fields() -> list[bytes]:
    """Fields that announce a body, and some that look like it."""
    lengths = [b"", b" 0", b" 00", b" 5", b" 0,0", b" 0 ", b"\t0", b" +0", b" -0", b" 0x0", b" 0 0", b" 9" * 30, b" O"]
    fields = [named + b":" + length for length in lengths for named in (b"Content-Length", b"CONTENT-length")]
    fields += [b"Transfer-Encoding: chunked", b"transfer-encoding:", b"TRANSFER-ENCODING: identity", b"TE: chunked"]
    return fields + [b"Content-Length : 5", b"Content_Length: 5", b"Content-Length: 0\r\nContent-Length: 1"]


def closing_fields() -> list[bytes]:
    """Fields that close a link, and some that look like it."""
    values = [b"close", b"Close", b"CLOSE", b"keep-alive, close", b"close,", b",close", b"closed", b"clos e", b"",
              b"\tclose \t", b"close;q=1", b'"close"', b"keep-alive", b"a,b,\tcLoSe\t,c", b"close close",
              b"Upgrade\r\nConnection: close"]
    others = [b"connection: close", b"CONNECTION:close", b"Proxy-Connection: close", b"Keep-Alive: close"]
    return [b"Connection:" + value for value in values] + others


METHODS = [b"PUT", b"POST", b"HEAD", b"OPTIONS", b"get", b"GETT", b"G", b"!#$%&'*+-.^_`|~", b"GE T", b"", b"G\xc3\xa9T"]
VERSIONS = [b"HTTP/1.0", b"HTTP/1.2", b"HTTP/2.0", b"HTTP/1.", b"http/1.1", b"HTTP/1.1 ", b" HTTP/1.1", b"HTTP/1.10",
            b"HTTP/01.1", b"HTTP/1.1\r", b""]
OTHER_TARGETS = [b"/", b"*", b"?", b"/mod_visus", b"/mod_visus?", b"/\xc3\xa9", b"/\xff", b"/a\x7f", b"/a\x01",
                 b"/a\tb", b"/a b", b"/" + b"%" * 9, b"/\xe2\x82", b""]
ENDS_OF_TARGETS = [b"#x", b"&note=\xe2\x82\xac", b"&note=\xef\xbf\xbd", b"&note=%", b"&note=%4", b"&note=%zz", b"?",
                   b"&=", b"&==", b"&action", b"&", b"&note"]


def first_lines(target: bytes) -> list[bytes]:
    """First lines with other methods, versions, targets and spaces."""
    targets = OTHER_TARGETS + [target + end for end in ENDS_OF_TARGETS]
    targets += [b"http://127.0.0.1" + target, b"/mod_visus#?" + target]
    lines = [method + b" " + target + b" HTTP/1.1" for method in METHODS]
    lines += [b"GET " + target + b" " + version for version in VERSIONS]
    lines += [b"GET " + each + b" HTTP/1.1" for each in targets]
    return lines + [b"GET\t" + target + b"\tHTTP/1.1", b"GET  / HTTP/1.1"]


def odd_fields() -> list[bytes]:
    """Fields that a head has or that no head has."""
    names = [b"", b":", b": a", b"a", b"a b: c", b"a : b", b" a: b", b"\ta: b", b"\xc3\xa9: a", b"(a): b", b"a\r: b"]
    values = [b"a: b\r\n c", b"a:\0", b"a: \x7f", b"a: \x80\xff", b"a:\tb", b"a: b\rc", b"a:\x0b", b"a:b:c"]
    return names + values + [b"a:" + b"x" * 8_000, b"a" * 4_000 + b":", b"a:\r\nb:\r\nc:"]


def sized_heads(target: bytes) -> list[bytes]:
    """Heads at the limits of fields and bytes, and above them; ones that are not whole too."""
    start = b"GET " + target + b" HTTP/1.1\r\n"
    most = server.LONGEST_HEAD
    fill = most - len(start) - len(b"a:\r\n\r\n")
    rows = [start + b"a:\n" * count + end for count in (63, 64, 65, 66, 2_000) for end in (b"\n", b"", b"\0", b"\r")]
    rows += [start + b"a:" + b"x" * (fill + more) + b"\r\n\r\n" for more in (-1, 0, 1, 2)]
    rows += [start + b"a:" + b"x" * (most + more - len(start) - len(b"a:")) for more in (-1, 0, 5)]
    rows += [b"\r\n" * count + start + b"\r\n" for count in (1, 9, 4_000, 4_096)]
    rows += [b"\n" * (most - len(start) - 2 + more) + start + b"\r\n" for more in (-1, 0, 1)]
    rows += [each * (most + more) for each in (b"G", b"\n") for more in (-1, 0)] + [b"\r\n" * 5]
    return rows + [b"GET /" + b"a" * 8_187, b"GET /" + b"a" * 9_000 + b" HTTP/1.1\r\n\r\n"]


def hostile_starts() -> list[bytes]:
    """Inputs that no head begins with, or that end inside one."""
    line = b"GET / HTTP/1.1"
    fronts = [b"GET", b"GET ", b"GET / HT", line, line + b"\r", line + b"\r\n", line + b"\r\n\r", line + b"\na"]
    others = [b"\0", b"\x80", b" ", b":", b"\r\r", b"\rG", b"\r", b"\n\r", b"\x16\x03\x01\x02\x00\x01\x00"]
    targets = [b"GET /\xff", b"GET /\xc3", b"GET /\xc3 ", b"GET /\xff HTTP/1.1\r\n\r\n", b"GET /\xff" + b"a" * 9_000]
    return fronts + others + targets + [b"SSH-2.0-x\r\n", b"PRI * HTTP/2.0\r\n\r\nSM\r\n\r\n"]


STRAY = [b"\r", b"\n", b" ", b":", b"\t", b"%", b"&", b"?", b"\0", b"\r\n\r\n"]


def spoilt_head(random: Random, head: bytes) -> bytes:
    """A head with other bytes in it."""
    changed = bytearray(head)
    for _ in range(random.choice([1, 1, 2, 5])):
        place = random.randint(0, len(changed))
        style = random.randrange(6)
        piece = random.choice([random.randbytes(1), random.choice(STRAY)])
        if style <= 1:
            changed[place:place + 1] = piece
        elif style == 2:
            changed[place:place] = piece
        elif style == 3:
            del changed[place:place + random.randint(1, 9)]
        elif style == 4:
            changed[place:place] = changed[random.randint(0, len(changed)):][:random.randint(1, 30)]
        elif chance(random, 30):
            del changed[place:]
    return bytes(changed)


def hostile_bytes(random: Random, head: bytes) -> bytes:
    """Random bytes, or a right head with other bytes in it, now and then with a right head behind."""
    style = random.randrange(10)
    if style == 0:
        sent = random.randbytes(random.choice([1, 3, 30, 300, 9_000]))
    elif style == 1:
        sent = bytes(random.choice(b"GET /:\r\n HTP1.0aZ\t") for _ in range(random.randint(1, 60)))
    else:
        sent = spoilt_head(random, head)
    return sent + (head if chance(random, 20) else b"")
