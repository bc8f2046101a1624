"""Servers of random and hostile datasets, and the peers that talk to them.

Each kind of case at the end of this file gets a bench, whose `serve` runs the program and compares what each link gets.
Only `server.py` says what is right.
"""
from __future__ import annotations

import os
import socket
from collections.abc import Callable, Sequence
from dataclasses import dataclass
from random import Random
from typing import Protocol

import cases
import commands
import reference
from cases import chance, draw_count, odd_number, write
from heads import (SPOILS, body_fields, closing_fields, draw_head, draw_target, first_lines, hostile_bytes,
                   hostile_starts, lay_out_head, odd_fields, other_time, outside_form, plain_head, right_form,
                   sized_heads)
from reference import Header
from serving import Leaves, Link, Talk, play_in_turns, play_together

ANYWHERE = b"127.0.0.1:0"
HEADS_A_SERVER = 1_000
WORKERS = 7
"""So many workers serve links at the same time, where that is looked at."""
NO_ADDRESSES = [b"localhost:80", b"127.0.0.1", b"127.0.0.1:65536", b":80", b"", b"127.0.0.1:", b"[127.0.0.1]:80", b"80",
                b"300.0.0.1:80", b"1.2.3:80", b"192.0.2.1:80", b"::1:80", b"[::1", b"http://127.0.0.1:80",
                b"127.0.0.1:80 ", b" 127.0.0.1:80", b"127.0.0.1:-1", b"127.0.0.1:x"]
"""Texts that are no address, and one that is no address of this machine."""


class Bench(cases.Bench, Protocol):
    """What a case of a server is made on."""
    heads: int
    """The number of random heads."""
    links: int
    """The number of links in a row."""

    def serve(self, words: Sequence[bytes], links: Sequence[Link], sink: bytes | None = None) -> None:
        """Runs the program as a server of these links, and compares what each gets and how the run ends."""

    def serve_peers(self, words: Sequence[bytes], links: int, talk: Talk, sink: bytes | None = None) -> None:
        """Runs the program as a server of so many links, which are talked over, and compares how the run ends."""

    def serve_short(self, words: Sequence[bytes], links: Sequence[Link], memory: int, room: int) -> None:
        """As `serve`, in so many bytes of address space, which have room for answers of so many bytes."""


@dataclass
class Shelf:
    """A dataset that is there to be served."""
    path: bytes
    header: Header
    steps: list[int]

    def name(self) -> bytes:
        """The name under which it is served."""
        return self.path.rpartition(b"/")[2].removesuffix(b".idx")

    def target(self, random: Random) -> bytes:
        """A target of this dataset, mostly one without a fault."""
        return draw_target(random, self.header, self.name(), self.steps)

    def right_target(self, random: Random) -> bytes:
        """A target of this dataset that has no fault."""
        return right_form(random, self.header, self.name(), self.steps).text(random)

    def words(self, random: Random) -> list[bytes]:
        """The words that serve it, but for the number of links."""
        most = commands.OPTIONS[b"serve"]
        chosen = random.sample([b"--cache", b"--workers"], random.choice([0, 0, 1, 2]))
        options = [word for name in chosen for word in (name, odd_number(random, draw_count(random, most[name])))]
        return [b"serve", self.path, ANYWHERE, *options]


# Datasets


def convert_steps(bench: Bench, more: int = 0) -> Shelf:
    """A random dataset with one to three steps that the program itself has converted, and some of them again."""
    random = bench.random
    texts = cases.right_texts(random)
    header, path = cases.header_of(texts), cases.draw_path(random, bench)
    steps = commands.steps_of(header)
    shelf = Shelf(path, header, sorted(random.sample(steps, min(len(steps), random.randint(1, 3)))))
    convert(bench, path, header, texts, shelf.steps)
    convert(bench, path, header, texts, random.choices(shelf.steps, k=more))
    return shelf


def convert(bench: Bench, path: bytes, header: Header, texts: Sequence[bytes], steps: Sequence[int]) -> None:
    """Converts steps of a dataset, the last one first, each out of a volume of its own."""
    for step in reversed(steps):
        write(bench, b"r.raw", bench.random.randbytes(reference.volume_size(header)))
        bench.run([b"convert", path, b"r.raw", *texts, b"%d" % step])


def small_shelf(bench: Bench) -> Shelf:
    """The dataset of the page with two steps, of which replies are made fast."""
    texts = [b"0 3 0 3", b"a uint8 + b int16[3]", b"V0101", b"2", b"2", b"./%01x.bin", b"0 9 time%04d/"]
    shelf = Shelf(b"v.idx", cases.header_of(texts), [0, 4])
    convert(bench, shelf.path, shelf.header, texts, shelf.steps)
    return shelf


def odd_shelf(bench: Bench) -> Shelf:
    """A dataset that another program could have laid out, with or without a time, and with files that are not there."""
    random = bench.random
    while True:
        entries = cases.entries_of(cases.draw_dataset(random).texts(random))
        text = cases.lay_out_header(random, entries[:-1] if chance(random, 50) else entries)
        try:
            header = reference.parse_header(text)
        except reference.HeaderFault:
            continue
        break
    path = cases.draw_path(random, bench)
    write(bench, path, text)
    steps = list(commands.steps_of(header))[:random.randint(1, 3)]
    for step in steps:
        cases.put_step(bench, header, path, step)
    return Shelf(path, header, steps)


def empty_shelf(bench: Bench, texts: Sequence[bytes], steps: Sequence[int]) -> Shelf:
    """A dataset of steps that have no files."""
    header = cases.header_of(texts)
    write(bench, b"v.idx", reference.header_words(texts))
    for step in steps:
        os.makedirs(os.path.join(bench.folder, reference.step_folder(header, step)))
    return Shelf(b"v.idx", header, list(steps))


# Links


def cut(sent: bytes, size: int) -> list[bytes]:
    """Some bytes in pieces of a size."""
    return [sent[start:start + size] for start in range(0, len(sent), size)]


def draw_pieces(random: Random, sent: bytes) -> list[bytes]:
    """Some bytes in pieces."""
    style = random.randrange(4)
    if style <= 1 or not sent:
        return [sent]
    if style == 2:
        return cut(sent, max(random.choice([1, 2, 3, 7, 100, 8_192]), len(sent) // 300))
    place = random.randint(0, len(sent))
    return [sent[:place], sent[place:]]


def draw_link(random: Random, sent: bytes) -> Link:
    """A link over which some bytes are sent."""
    pieces = draw_pieces(random, sent)
    return Link(pieces, random.choice([0, 0, 0.02 / len(pieces)]), random.choice(list(Leaves)))


def plain_link(shelf: Shelf, random: Random) -> Link:
    """A link of one right head."""
    return Link([plain_head(shelf.right_target(random))], leaves=Leaves.SERVED)


def each_followed(shelf: Shelf, random: Random, inputs: Sequence[bytes]) -> list[Link]:
    """A link for each input, and behind each one of a right head."""
    return [link for sent in inputs for link in (draw_link(random, sent), plain_link(shelf, random))]


# The kinds of cases


def questions(bench: Bench) -> None:
    """Questions of converted datasets, several on a link."""
    random, shelf = bench.random, convert_steps(bench)
    links = [draw_link(random, b"".join(draw_head(random, shelf.target(random)) for _ in range(random.randint(0, 5))))
             for _ in range(20)]
    bench.serve(shelf.words(random), links)


def odd_files(bench: Bench) -> None:
    """Questions of files that another program could have laid out, of headers with and without times."""
    random, shelf = bench.random, odd_shelf(bench)
    links = [draw_link(random, b"".join(draw_head(random, shelf.target(random)) for _ in range(random.randint(1, 5))))
             for _ in range(10)]
    bench.serve(shelf.words(random), links)


def pieces(bench: Bench) -> None:
    """The same heads in pieces of each size, with and without pauses."""
    random, shelf = bench.random, convert_steps(bench)
    sent = b"".join(draw_head(random, shelf.target(random)) for _ in range(3))
    links = [Link(cut(sent, size), pause, leaves) for size in (1, 2, 3, 8_192) for pause in (0, 0.0005)
             for leaves in Leaves]
    bench.serve(shelf.words(random), links)


def target_faults(bench: Bench) -> None:
    """Each fault of a target, and two of them together, and targets of which all is left to the defaults."""
    random, shelf = bench.random, convert_steps(bench)
    spoils = [(first, second) for first in SPOILS for second in (first, *SPOILS)]
    targets = []
    for both in spoils:
        form = right_form(random, shelf.header, shelf.name(), shelf.steps)
        for spoil in random.sample(both, 2):
            spoil(random, shelf.header, form)
        targets.append(form.text(random))
    box = b"+".join(b"%d+%d" % pair for pair in shelf.header.box)
    dataset = shelf.name().replace(b" ", b"%20")
    targets.append(b"/mod_visus?action=boxquery&dataset=" + dataset + b"&box=" + box)
    links = [draw_link(random, b"".join(draw_head(random, target) for target in targets[start:start + 12]))
             for start in range(0, len(targets), 12)]
    bench.serve(shelf.words(random), links)


def plan_faults(bench: Bench) -> None:
    """Boxes, levels and answers that a dataset does not have, at the limits and above them, and unknown times."""
    random, shelf = bench.random, convert_steps(bench)
    targets = []
    for _ in range(30):
        form = right_form(random, shelf.header, shelf.name(), shelf.steps)
        random.choice([outside_form, other_time])(random, shelf.header, form)
        targets.append(form.text(random))
    bench.serve(shelf.words(random), [draw_link(random, b"".join(map(plain_head, targets))) for _ in range(3)])


def large_shelf(bench: Bench) -> Shelf:
    """A dataset of 4,194,305 samples of 64 bytes in steps without files: one sample more than an answer has."""
    texts = [b"0 4194304 0 0", b"a uint8[64]", b"V" + b"0" * 23, b"12", b"1024", b"%06x", b"5 9 time%04d/"]
    return empty_shelf(bench, texts, [6, 8])


def boxes_of(dataset: bytes, asks: Sequence[bytes]) -> list[bytes]:
    """Heads that ask for boxes, each with what stands behind it."""
    return [plain_head(b"/mod_visus?action=boxquery&dataset=%s&box=%s" % (dataset, ask)) for ask in asks]


def too_large(bench: Bench) -> None:
    """Answers that are too large, and other refusals that come before or behind that."""
    random, shelf = bench.random, large_shelf(bench)
    heads = boxes_of(b"v", [
        b"0+4194304+0+0", b"0+4194304+0+0&time=6", b"0+4194305+0+0", b"9+9+0+0&time=8", b"0+4194304+0+0&time=99",
        b"0+4194304+0+1&time=6", b"1+4194304+0+0&fromh=24&toh=1", b"1+4194304+0+0&toh=24", b"9+9+0+0&time=7",
        b"0+4194304+0+0&toh=4294967295",
    ])
    bench.serve(shelf.words(random), [draw_link(random, b"".join(random.sample(heads, len(heads)))) for _ in range(3)])


def short_memory(bench: Bench) -> None:
    """Answers for which there is no memory, and others on the same link, for which there is."""
    random, shelf = bench.random, large_shelf(bench)
    heads = boxes_of(b"v", [b"1+4194304+0+0&time=6", b"0+4095+0+0&time=8", b"7+7+0+0&time=6", b"0+3000000+0+0&time=8"])
    links = [draw_link(random, b"".join(random.choices(heads, k=12))) for _ in range(3)]
    bench.serve_short([b"serve", shelf.path, ANYWHERE], links, 2**27, 2**24)


def posts(bench: Bench) -> None:
    """A dataset without a step that stands, and one with many; what stands in the place of a folder is no step."""
    random = bench.random
    texts = [b"0 3 0 3", b"a uint8", b"V0101", b"2", b"2", b"./%01x.bin", b"7 99 time%04d/"]
    write(bench, b"time0007", b"no folder")
    for steps in ([], sorted(random.sample(range(8, 100), 40))):
        shelf = empty_shelf(bench, texts, steps)
        sent = b"".join(boxes_of(b"v", [b"0+3+0+3&time=%d" % step for step in range(5, 102)]))
        bench.serve(shelf.words(random), [draw_link(random, sent)])


def odd_heads(bench: Bench) -> None:
    """Heads at the limits, with bodies, with other methods and versions, that close, and that are none."""
    random, shelf = bench.random, small_shelf(bench)
    target = shelf.right_target(random)
    first = b"GET " + target + b" HTTP/1.1"
    fields = [*body_fields(), *closing_fields(), *odd_fields()]
    inputs = [lay_out_head(random, first, [b"Host: x", each, b"Accept: */*"]) for each in fields]
    inputs += [lay_out_head(random, line, [b"Connection: keep-alive"]) for line in first_lines(target)]
    inputs += [lay_out_head(random, b"HEAD / HTTP/1.0", [each]) for each in body_fields()[:4]]
    sizes = sized_heads(target)
    inputs = [each + plain_head(target) for each in inputs + sizes] + sizes + hostile_starts()
    bench.serve(shelf.words(random), each_followed(shelf, random, inputs))


def leavings(bench: Bench) -> None:
    """Peers that leave inside a head, that shut their side early, and that break their links."""
    random, shelf = bench.random, small_shelf(bench)
    heads = b"".join(draw_head(random, shelf.target(random)) for _ in range(3))
    links = []
    for _ in range(60):
        sent = heads[:random.randint(0, len(heads))]
        links += [Link([sent], leaves=leaves) for leaves in Leaves] + [plain_link(shelf, random)]
    bench.serve(shelf.words(random), links)


def hostile_heads(bench: Bench) -> None:
    """Random bytes and spoilt heads; behind each link one of a right head."""
    random, shelf = bench.random, small_shelf(bench)
    targets = [shelf.target(random) for _ in range(20)]
    behind = [Link([plain_head(target)]) for target in targets]
    for start in range(0, bench.heads, HEADS_A_SERVER):
        count = min(HEADS_A_SERVER, bench.heads - start)
        inputs = [hostile_bytes(random, draw_head(random, random.choice(targets))) for _ in range(count)]
        links = [link for sent in inputs for link in (Link([sent]), random.choice(behind))]
        bench.serve(shelf.words(random), links)


def many_links(bench: Bench) -> None:
    """Very many links in a row."""
    random, shelf = bench.random, small_shelf(bench)
    leaves = [Leaves.AT_ONCE, Leaves.SERVED]
    links = [Link([plain_head(shelf.target(random))], leaves=random.choice(leaves)) for _ in range(bench.links)]
    bench.serve(shelf.words(random), links)


def links_at_once(bench: Bench) -> None:
    """Links that are made and sent over at the same time, to several workers that share a cache of three blocks.

    As many links as there are workers have several replies each before one of them ends; then come many more than workers.
    """
    random, shelf = bench.random, convert_steps(bench)
    words = [b"serve", shelf.path, ANYWHERE, b"--workers", b"%d" % WORKERS, b"--cache", b"3"]
    links = [Link([plain_head(shelf.right_target(random)) for _ in range(8)]) for _ in range(WORKERS)]
    bench.serve_peers(words, len(links), lambda address, site: play_in_turns(address, site, links))
    many = [draw_link(random, b"".join(draw_head(random, shelf.target(random)) for _ in range(random.randint(2, 8))))
            for _ in range(60)]
    bench.serve_peers(words, len(many), lambda address, site: play_together(address, site, many))


def large_answers(bench: Bench) -> None:
    """Answers of megabytes, several on a link."""
    random = bench.random
    texts = [b"0 63 0 63", b"a uint8[64] + b uint8", b"V" + b"01" * 6, b"8", b"4", b"%03x", b"0 1 t%01d/"]
    shelf = Shelf(b"v.idx", cases.header_of(texts), [1])
    convert(bench, shelf.path, shelf.header, texts, shelf.steps)
    heads = boxes_of(b"v", [b"0+63+0+63&time=1"])
    links = [Link(heads * count, leaves=leaves) for count in (1, 12) for leaves in Leaves]
    bench.serve(shelf.words(random), links + [plain_link(shelf, random)])


def lost_blocks(bench: Bench) -> None:
    """Files that are cut off at their tables while they are served, and that are whole again later."""
    random, shelf = bench.random, convert_steps(bench)
    beside = os.path.join(bench.folder, os.path.dirname(shelf.path))
    whole = {}
    for step in shelf.steps:
        for file in reference.files_of_step(shelf.header):
            path = os.path.join(beside, reference.file_path(shelf.header, step, file))
            with open(path, "rb") as content:
                whole[path] = content.read()

    def lose() -> None:
        for path in whole:
            os.truncate(path, shelf.header.table_size())

    def restore() -> None:
        for path, content in whole.items():
            with open(path, "r+b") as file:
                file.write(content)

    sent = b"".join(draw_head(random, shelf.target(random)) for _ in range(6))
    links = [Link([sent], before=lose, unreadable=True), Link([sent], unreadable=True)]
    bench.serve(shelf.words(random), links + [Link([sent], before=restore), Link([sent])])


def revisions(bench: Bench) -> None:
    """Steps that were written again: each is served as its newest revision was at the start."""
    random, shelf = bench.random, convert_steps(bench, bench.random.randint(2, 4))
    step = random.choice(shelf.steps)
    beside = os.path.join(bench.folder, os.path.dirname(shelf.path))

    def folder(revision: int) -> bytes:
        return os.path.join(beside, reference.step_folder(shelf.header, step, revision))

    def asked() -> bytes:
        form = right_form(random, shelf.header, shelf.name(), [step])
        form.put(b"time", b"%d" % step)
        return b"".join(draw_head(random, target) for target in (form.text(random), shelf.target(random)))

    def write_next() -> None:
        cases.put_step(bench, shelf.header, shelf.path, step, count)

    def remove_next() -> None:
        cases.remove(folder(count))

    count = commands.count_of_revisions(shelf.header, step, beside)
    links = [Link([asked()]), Link([asked()], before=write_next), Link([asked()], before=remove_next)]
    bench.serve(shelf.words(random), links)
    write_next()
    bench.serve(shelf.words(random), [Link([asked() + asked()])])
    cases.write(bench, os.path.join(folder(count + 2), b"behind a gap"), b"")
    for file in reference.files_of_step(shelf.header):
        cut_file(bench, shelf, step, file, random.randrange(count))
    bench.serve(shelf.words(random), [Link([asked() + asked()])])
    for file in reference.files_of_step(shelf.header):
        cut_file(bench, shelf, step, file, count)
    bench.run([b"serve", shelf.path, b"no address"])


def rounds(bench: Bench) -> None:
    """Questions that need more than 2^26 bytes of blocks."""
    random = bench.random
    texts = cases.spread_texts(b" ".join(b"%d %d" % pair for pair in cases.SPREAD_BOX))
    shelf = empty_shelf(bench, texts, [2, 3])
    cases.put_spread_file(bench, shelf.header, 3)
    heads = boxes_of(b"v", [b"4194300+4194308+0+0&time=%d" % step for step in (2, 3, 3)])
    heads += [plain_head(shelf.right_target(random)) for _ in range(3)]
    bench.serve(shelf.words(random), [draw_link(random, b"".join(random.sample(heads, 3))) for _ in range(2)])


def slips(bench: Bench) -> None:
    """Addresses that are none or are taken, wrong datasets and words, and an output that is full."""
    random, shelf = bench.random, convert_steps(bench)
    with socket.create_server(("127.0.0.1", 0)) as taken:
        addresses = [b"127.0.0.1:%d" % taken.getsockname()[1], *NO_ADDRESSES]
        for address in addresses:
            bench.run([b"serve", shelf.path, address, *random.choice([[], [b"--links", b"1"]])])
        for dataset in (b"none.idx", b".", b"r.raw", b"none/v.idx", b"n" * 300, shelf.path + b"/x"):
            bench.run([b"serve", dataset, random.choice(addresses)])
        spoil_step(bench, shelf)
        for address in addresses[:3]:
            bench.run([b"serve", shelf.path, address])


def spoil_step(bench: Bench, shelf: Shelf) -> None:
    """Damages a file of the last step of a dataset."""
    cut_file(bench, shelf, shelf.steps[-1], bench.random.choice(reference.files_of_step(shelf.header)))


def cut_file(bench: Bench, shelf: Shelf, step: int, file: int, revision: int = 0) -> None:
    """Cuts a file of a revision of a step off in its table, where it is there."""
    beside = os.path.join(bench.folder, os.path.dirname(shelf.path))
    path = os.path.join(beside, reference.file_path(shelf.header, step, file, revision))
    if os.path.exists(path):
        os.truncate(path, bench.random.choice([0, 39, 79, shelf.header.table_size() - 1]))


def damaged(bench: Bench) -> None:
    """A dataset whose tables are wrong in the second step and later ones."""
    random = bench.random
    texts = [b"0 3 0 3", b"a uint8", b"V0101", b"2", b"2", b"./%01x.bin", b"0 9 time%04d/"]
    header = cases.header_of(texts)
    convert(bench, b"v.idx", header, texts, [2, 5, 7])
    for step in random.sample([5, 7], random.choice([1, 2])):
        file = reference.file_path(header, step, random.choice([0, 2]))
        cases.damage(bench, header, os.path.join(bench.folder, file))
    words = [b"serve", b"v.idx", ANYWHERE]
    try:
        commands.standing_steps(header, bench.folder)
    except reference.Refusal:
        bench.run([*words, *random.choice([[], [b"--links", b"3"]])])
        return
    bench.serve(words, [plain_link(Shelf(b"v.idx", header, [2, 5, 7]), random) for _ in range(9)])


def draw_options(random: Random) -> list[bytes]:
    """Options of a server that may be wrong."""
    values = [b"0", b"00", b"1", b"01", b"64", b"65", b"65536", b"65537", b"9" * 19, b"9" * 20, b"-1", b"x", b"",
              b"0" * 18 + b"1", b"0" * 19 + b"1", b"1.0"]
    right = [b"--cache", b"--workers", b"--links", b"--ingest", b"--raw"]
    wrong = [b"--ranks", b"--Cache", b"--cache=64", b"--", b"-c", b"cache", b""]
    options = []
    for _ in range(random.randint(0, 4)):
        options += [random.choice(right if chance(random, 80) else wrong), random.choice(values)]
    return options[:-1] if chance(random, 15) else options


def wrong_words(bench: Bench) -> None:
    """Wrong words of a server, over an empty folder."""
    random = bench.random
    for _ in range(30):
        count = random.choice([3, 3, 3, 3, 2, 1])
        bench.run([b"serve", b"v.idx", ANYWHERE][:count] + (draw_options(random) if count == 3 else []))


def full_output(bench: Bench) -> None:
    """An output that does not take the closing line."""
    random, shelf = bench.random, small_shelf(bench)
    bench.serve(shelf.words(random), [plain_link(shelf, random) for _ in range(3)], b"/dev/full")


KINDS: list[Callable[[Bench], None]] = [
    questions, odd_files, pieces, target_faults, plan_faults, too_large, short_memory, posts, odd_heads, leavings,
    hostile_heads, many_links, links_at_once, large_answers, lost_blocks, slips, damaged, wrong_words, full_output,
    revisions, rounds,
]
"""The kinds of cases, which come in turn."""


def draw_case(bench: Bench, number: int) -> str:
    """Makes and runs a case, and gives the name of its kind."""
    kind = KINDS[number % len(KINDS)]
    kind(bench)
    return kind.__name__
