#!/usr/bin/env python3
"""Tries the viewer; `try.sh` runs it, within a time limit. It needs Debian's python3-selenium, chromium-driver and nginx-light."""
from __future__ import annotations

import array
import base64
import http.client
import os
import re
import shutil
import socket
import struct
import subprocess
import sys
import tempfile
import time
from contextlib import ExitStack
from pathlib import Path
from urllib.parse import parse_qsl, urlencode

HERE = Path(__file__).resolve().parent
sys.path.insert(0, str(HERE.parent / "check"))

from selenium import webdriver  # noqa: E402
from selenium.webdriver.chrome.service import Service  # noqa: E402
from selenium.webdriver.common.action_chains import ActionChains  # noqa: E402
from selenium.webdriver.common.by import By  # noqa: E402
from selenium.webdriver.common.keys import Keys  # noqa: E402
from selenium.webdriver.remote.webelement import WebElement  # noqa: E402
from selenium.webdriver.support.ui import WebDriverWait  # noqa: E402

import reference  # noqa: E402

SIDES = (64, 48, 32)
"""The samples along axes 0, 1 and 2; not all of them a power of two."""
CANVAS = 512
SECONDS = 60


def raw_volume(step: int) -> bytes:
    """A round hill of bytes, and vectors of three numbers, each its place times a factor: the two fields in turn."""
    hill, vectors = bytearray(), array.array("f")
    for z in range(SIDES[2]):
        for y in range(SIDES[1]):
            for x in range(SIDES[0]):
                far = (x - 20 - 4 * step) ** 2 + (y - 24) ** 2 + 2 * (z - 16) ** 2
                hill.append(max(0, 255 - far // 4) if (x // 4 + y // 4 + z // 4) % 2 else max(0, 200 - far // 4))
                vectors.extend((x * 0.5, y * 2.0, z - 16.0))
    return bytes(hill) + vectors.tobytes()


PLANE = (100, 60)
"""The samples of the dataset of two axes."""


def raw_plane() -> bytes:
    """Numbers of four bytes, some of which are no number, and integers on both sides of 0: the two fields in turn."""
    waves, numbers = array.array("f"), array.array("i")
    for y in range(PLANE[1]):
        for x in range(PLANE[0]):
            waves.append(float("nan") if (x - 50) ** 2 + (y - 30) ** 2 < 90 else (x * x - 3 * x * y) / 64)
            numbers.append((x - 50) * (y - 20))
    return waves.tobytes() + numbers.tobytes()


class Viewer:
    """The page in a browser."""

    def __init__(self, address: str, folder: Path) -> None:
        options = webdriver.ChromeOptions()
        options.binary_location = shutil.which("chromium") or ""
        for word in ("--headless=new", "--no-sandbox", "--disable-gpu", "--disable-dev-shm-usage", "--window-size=860,880",
                     "--force-device-scale-factor=1", f"--user-data-dir={folder}", "--disable-background-networking",
                     "--disable-component-update", "--no-first-run", "--host-resolver-rules=MAP * ~NOTFOUND, EXCLUDE 127.0.0.1"):
            options.add_argument(word)
        options.set_capability("goog:loggingPrefs", {"browser": "ALL"})
        self.driver = webdriver.Chrome(service=Service(shutil.which("chromedriver")), options=options)
        self.driver.set_page_load_timeout(SECONDS)
        self.address = address
        self.turn: str | None = None

    def open(self, dataset: str = "s", **shown: object) -> str:
        """Opens the page anew with what is to be shown; gives the state that it comes to."""
        self.driver.get("about:blank")
        self.driver.get(f"{self.address}/?dataset={dataset}#{urlencode(shown)}")
        return self.settled()

    def settled(self, least_turn: int = 0) -> str:
        """Waits until the picture is whole, or an error is shown; gives which."""
        def is_settled(driver: webdriver.Chrome) -> bool:
            body = driver.find_element(By.TAG_NAME, "body")
            turn = int(body.get_attribute("data-turn") or 0)
            return body.get_attribute("data-state") in ("done", "error") and turn >= least_turn
        WebDriverWait(self.driver, SECONDS, 0.02).until(is_settled)
        return self.driver.find_element(By.TAG_NAME, "body").get_attribute("data-state")

    def turns(self) -> int:
        """How many pictures came to their end."""
        return int(self.driver.find_element(By.TAG_NAME, "body").get_attribute("data-turn") or 0)

    def pixels(self) -> bytes:
        """The canvas: four bytes a pixel, the uppermost row first."""
        text = self.driver.execute_script(
            "const c = document.getElementById('view');"
            "const d = c.getContext('2d').getImageData(0, 0, c.width, c.height).data;"
            "let s = ''; for (let i = 0; i < d.length; i += 8192) s += String.fromCharCode(...d.subarray(i, i + 8192));"
            "return btoa(s);")
        return base64.b64decode(text)

    def text(self, name: str) -> str:
        """The text of an element."""
        return self.driver.find_element(By.ID, name).text

    def set(self, name: str, value: object, event: str = "input", inner: str = "") -> str:
        """Has a control take a value, as a user does it; gives the state that the page comes to."""
        before = self.turns()
        self.driver.execute_script(
            "const e = document.querySelector(arguments[0]); e.value = arguments[1];"
            "e.dispatchEvent(new Event(arguments[2], {bubbles: true}));", f"#{name}{inner}", str(value), event)
        return self.settled(before + 1)


FORMS = {b"uint8": "B", b"float32": "f", b"int32": "i"}


class Wanted:
    """What the canvas should have, by the reference alone."""

    def __init__(self, folder: Path, name: str) -> None:
        self.header = reference.parse_header((folder / f"{name}.idx").read_bytes())
        self.folder = folder
        self.files: dict[int, dict[int, bytes]] = {}

    def contents(self, step: int) -> dict[int, bytes]:
        """The files of a timestep."""
        if step not in self.files:
            paths = {file: self.folder / reference.file_path(self.header, step, file).decode()
                     for file in reference.files_of_step(self.header)}
            self.files[step] = {file: path.read_bytes() for file, path in paths.items()}
        return self.files[step]

    def samples(self, step: int, field: int, box: reference.Box, level: int) -> dict[reference.Point, tuple[float, ...]]:
        """The numbers of each sample of a box at levels 0 to `level`, by its point."""
        points = reference.asked_points(box, self.header.mask, 0, level)
        found = reference.answer(self.header, field, box, 0, level, self.contents(step))
        which = self.header.fields[field]
        form, size = f"<{which.count}{FORMS[which.base]}", which.sample_size()
        return {point: struct.unpack_from(form, found, place * size) for place, point in enumerate(points)}

    def canvas(self, step: int, field: int, component: "int | str", across: int, up: int, place: int, level: int,
               view: "tuple[tuple[int, int], tuple[int, int]]", ends: tuple[float, float]) -> bytes:
        """The canvas in grey: each sample covers what lies from its point to the next one on the level's grid."""
        axes = len(self.header.box)
        steps = [2 ** self.header.mask[level:].count(axis) for axis in range(axes)]
        box = [(place, place)] * axes
        box[across], box[up] = ((low // steps[axis] * steps[axis], high) for (low, high), axis in zip(view, (across, up)))
        found = self.samples(step, field, tuple(box), level)
        scale = CANVAS // max(high - low + 1 for low, high in view)
        rows = []
        for line in range(CANVAS):
            y = view[1][0] + (CANVAS - 1 - line) // scale
            row = bytearray()
            for pixel in range(0, CANVAS, scale):
                point = [place] * axes
                point[across], point[up] = ((view[0][0] + pixel // scale) // steps[across] * steps[across],
                                            y // steps[up] * steps[up])
                row += grey(found.get(tuple(point)), component, ends) * scale
            rows.append(bytes(row[:4 * CANVAS]))
        return b"".join(rows)


def grey(numbers: "tuple[float, ...] | None", component: "int | str", ends: tuple[float, float]) -> bytes:
    """The pixel of a sample; where there is none, or it is no number, the canvas is empty."""
    if numbers is None:
        return bytes(4)
    value = sum(each * each for each in numbers) ** 0.5 if component == "length" else numbers[component]  # type: ignore
    if value != value:
        return bytes(4)
    part = min(1.0, max(0.0, (value - ends[0]) / (ends[1] - ends[0])))
    return bytes([int(255 * part + 0.5)] * 3 + [255])


def how_far(seen: bytes, wanted: bytes) -> int:
    """The greatest difference of two pictures, or 256 where they have other sizes."""
    return max((abs(a - b) for a, b in zip(seen, wanted)), default=0) if len(seen) == len(wanted) else 256


class Trial:
    """What passed and what failed, with screenshots."""

    def __init__(self, viewer: Viewer, wanted: Wanted, shots: Path) -> None:
        self.passed = self.failed = 0
        self.viewer, self.wanted, self.shots = viewer, wanted, shots

    def hold(self, what: str, is_so: bool, seen: object = "") -> None:
        """Counts one thing that should be so."""
        if is_so:
            self.passed += 1
        else:
            self.failed += 1
            print("failed:", what, seen)

    def shoot(self, name: str) -> None:
        """Takes a screenshot."""
        self.viewer.driver.save_screenshot(str(self.shots / f"{name}.png"))

    def canvas(self, what: str, state: str, *picture: object, most: int = 0) -> None:
        """Compares the canvas with the reference: each byte of each pixel, with a difference of at most `most`."""
        seen = self.viewer.pixels()
        far = how_far(seen, self.wanted.canvas(*picture))  # type: ignore[arg-type]
        some = len(set(seen[::4])) > 4
        self.hold(what, state == "done" and far <= most and some, f"{state}, differs by {far}: {self.viewer.text('status')}")


GREY = {"palette": "grey", "least": 0, "greatest": 255}
WHOLE = tuple((0, side - 1) for side in SIDES)


def try_pictures(trial: Trial) -> None:
    """Planes across each axis, on and off the grids of coarse levels, parts of them, levels, timesteps and vectors."""
    viewer, last = trial.viewer, len(trial.wanted.header.mask)
    for place in (16, 17):
        state = viewer.open(places=f"0 0 {place}", **GREY)
        trial.canvas(f"the plane {place} across axis 2", state, 0, 0, 0, 0, 1, place, last, WHOLE[:2], (0, 255))
        trial.shoot(f"plane{place}")
    told = viewer.text("status")
    trial.hold("it says how much came", f"level {last} of {last}: 64 × 48 samples" in told, told)
    for across, up, other in ((0, 2, 1), (2, 1, 0), (1, 0, 2)):
        state = viewer.open(across=across, up=up, places="21 21 21", **GREY)
        trial.canvas(f"axes {across} and {up}", state, 0, 0, 0, across, up, 21, last, (WHOLE[across], WHOLE[up]), (0, 255))
    view = ((8, 39), (4, 35))
    state = viewer.open(view="8 39 4 35", places="0 0 9", **GREY)
    trial.canvas("a part of a plane", state, 0, 0, 0, 0, 1, 9, last, view, (0, 255))
    trial.shoot("part")
    for level in (last - 3, last - 6):
        state = viewer.open(finest=level, places="0 0 16", **GREY)
        trial.canvas(f"level {level}", state, 0, 0, 0, 0, 1, 16, level, WHOLE[:2], (0, 255))
    trial.shoot("coarse")
    state = viewer.open(time=2, places="0 0 16", **GREY)
    trial.canvas("another timestep", state, 2, 0, 0, 0, 1, 16, last, WHOLE[:2], (0, 255))
    for component, up, ends in ((0, 1, (0, 31.5)), (1, 1, (0, 94)), (2, 2, (-16, 15)), ("length", 1, (0, 100))):
        state = viewer.open(field=1, component=component, up=up, places="3 3 3", palette="grey", least=ends[0], greatest=ends[1])
        trial.canvas(f"component {component} of a vector", state, 0, 1, component, 0, up, 3, last, (WHOLE[0], WHOLE[up]), ends,
                     most=1)


def try_controls(trial: Trial) -> None:
    """What a user does with the controls and the pointer, and what the page says."""
    viewer, last = trial.viewer, len(trial.wanted.header.mask)
    viewer.open(places="0 0 16", **GREY)
    state = viewer.set("place2", 20, inner=" input")
    trial.canvas("the slider of a plane", state, 0, 0, 0, 0, 1, 20, last, WHOLE[:2], (0, 255))
    state = viewer.set("time", 2)
    trial.canvas("the slider of timesteps", state, 2, 0, 0, 0, 1, 20, last, WHOLE[:2], (0, 255))
    trial.hold("the address says what is shown", "time=2" in viewer.driver.current_url
               and "places=32+24+20" not in viewer.driver.current_url and "+20" in viewer.driver.current_url,
               viewer.driver.current_url)
    state = viewer.set("vertical", 2, "change")
    trial.canvas("another axis", state, 2, 0, 0, 0, 2, 0, last, (WHOLE[0], WHOLE[2]), (0, 255))
    viewer.open(places="0 0 16", **GREY)
    ActionChains(viewer.driver).move_to_element_with_offset(canvas_of(viewer), 5 * 8 + 4 - 256, 256 - 4 - 10 * 8).perform()
    value = trial.wanted.samples(0, 0, ((5, 5), (10, 10), (16, 16)), last)[5, 10, 16][0]
    trial.hold("the sample below the pointer", viewer.text("pointed") == f"(5, 10, 16): {value}", viewer.text("pointed"))
    viewer.driver.execute_script(
        "const c = document.getElementById('view'), r = c.getBoundingClientRect(); c.dispatchEvent(new WheelEvent('wheel',"
        "{deltaY: -1, clientX: r.left + 256, clientY: r.top + 256, cancelable: true}));")
    trial.hold("the wheel looks closer", viewer.settled(2) == "done" and "view=16+48+" in viewer.driver.current_url,
               viewer.driver.current_url)
    viewer.open(places="0 0 16", view="16 47 12 35", **GREY)
    ActionChains(viewer.driver).move_to_element(canvas_of(viewer)).click_and_hold().move_by_offset(64, 32).release().perform()
    WebDriverWait(viewer.driver, SECONDS, 0.05).until(lambda _: "view=12+43+14+37" in viewer.driver.current_url)
    state = viewer.settled()
    trial.canvas("dragging moves", state, 0, 0, 0, 0, 1, 16, last, ((12, 43), (14, 37)), (0, 255))
    state = viewer.set("whole", "", "click")
    trial.canvas("the whole box again", state, 0, 0, 0, 0, 1, 16, last, WHOLE[:2], (0, 255))
    state = viewer.open(field=1, component="length", places="0 0 16")
    ends = viewer.text("low"), viewer.text("high")
    lengths = [sum(each * each for each in numbers) ** 0.5
               for numbers in trial.wanted.samples(0, 1, (*WHOLE[:2], (16, 16)), last).values()]
    trial.hold("the ends of the colours are those of what is shown",
               [float(each) for each in ends] == [min(lengths), max(lengths)], ends)
    trial.shoot("vectors")
    viewer.open(time=2, **GREY)
    viewer.driver.find_element(By.ID, "play").click()
    WebDriverWait(viewer.driver, SECONDS, 0.02).until(lambda _: viewer.turns() >= 5)
    viewer.driver.find_element(By.ID, "play").click()
    trial.hold("play goes on past a timestep that is not there", viewer.turns() >= 5)


def canvas_of(viewer: Viewer) -> WebElement:
    """The canvas, whose middle the pointer's places count from."""
    return viewer.driver.find_element(By.ID, "view")


def try_first_level(trial: Trial) -> None:
    """Over a slow network the coarsest level is seen first, and stays until finer ones come."""
    viewer, last = trial.viewer, len(trial.wanted.header.mask)
    first = last - 10  # the plane 16 has nothing of the last level, and each step is of three levels
    viewer.open(places="0 0 16", **GREY)
    viewer.driver.execute_cdp_cmd("Network.enable", {})
    slow = {"offline": False, "latency": 2500, "downloadThroughput": -1, "uploadThroughput": -1}
    viewer.driver.execute_cdp_cmd("Network.emulateNetworkConditions", slow)
    viewer.driver.execute_script("const e = document.getElementById('time'); e.value = 2; e.dispatchEvent(new Event('input'));")
    WebDriverWait(viewer.driver, SECONDS, 0.02).until(lambda _: f"level {first} of" in viewer.text("status"))
    trial.shoot("first")
    state = viewer.driver.find_element(By.TAG_NAME, "body").get_attribute("data-state")
    trial.canvas("the first level", "done" if state == "loading" else state, 2, 0, 0, 0, 1, 16, first, WHOLE[:2], (0, 255))
    state = viewer.settled(2)
    trial.canvas("the last level", state, 2, 0, 0, 0, 1, 16, last, WHOLE[:2], (0, 255))
    trial.shoot("last")
    viewer.driver.execute_cdp_cmd("Network.emulateNetworkConditions", {**slow, "latency": 0})
    viewer.driver.execute_cdp_cmd("Network.disable", {})


def try_keys(trial: Trial) -> None:
    """Keys move, look closer, and go to neighbouring planes and timesteps."""
    viewer, last = trial.viewer, len(trial.wanted.header.mask)
    viewer.open(places="0 0 16", **GREY)
    for turn, (key, what, wanted) in enumerate((
            ("+", "view", "16 48 12 36"), (Keys.ARROW_LEFT, "view", "8 40 12 36"), (Keys.ARROW_UP, "view", "8 40 18 42"),
            (Keys.PAGE_UP, "places", "0 0 17"), (".", "time", "1"), (".", "time", "2"), ("0", "view", "0 63 0 47"),
            (Keys.PAGE_DOWN, "places", "0 0 16")), 2):
        ActionChains(viewer.driver).send_keys(key).perform()
        viewer.settled(turn)
        seen = dict(parse_qsl(viewer.driver.current_url.partition("#")[2]))[what]
        trial.hold(f"the key {key!r}", seen == wanted, seen)
    trial.canvas("what the keys came to", viewer.settled(), 2, 0, 0, 0, 1, 16, last, WHOLE[:2], (0, 255))


def try_plane(trial: Trial, wanted: Wanted) -> None:
    """A dataset of two axes: floating-point numbers, some of which are no number, and integers."""
    viewer, others = trial.viewer, trial.wanted
    trial.wanted, last = wanted, len(wanted.header.mask)
    whole = tuple((0, side - 1) for side in PLANE)
    for field, ends in ((0, (-50, 150)), (1, (-2000, 2000))):
        state = viewer.open("p", field=field, palette="grey", least=ends[0], greatest=ends[1])
        trial.canvas(f"field {field} of two axes", state, 0, field, 0, 0, 1, 0, last, whole, ends, most=1)
    state = viewer.open("p", field=0, palette="grey", least=-50, greatest=150, view="13 60 9 50", finest=last - 4)
    trial.canvas("a part at a coarse level", state, 0, 0, 0, 0, 1, 0, last - 4, ((13, 60), (9, 50)), (-50, 150), most=1)
    viewer.open("p", field=0, palette="blue to red")
    trial.shoot("plane2d")
    trial.wanted = others


def try_away(trial: Trial, tool: str, dataset: Path, server: "subprocess.Popen[bytes]", port: int) -> "subprocess.Popen[bytes]":
    """A server that goes away and comes back: what is drawn stays, it is told, and then the picture is the right one."""
    viewer, last = trial.viewer, len(trial.wanted.header.mask)
    viewer.open(places="0 0 16", **GREY)
    drawn = viewer.pixels()
    server.kill()
    server.communicate()
    state = viewer.set("place2", 8, inner=" input")
    told = viewer.text("status")
    trial.hold("it says that the server does not answer", state == "error" and "the server does not answer (502" in told, told)
    trial.hold("what was drawn stays", viewer.pixels() == drawn)
    trial.shoot("away")
    again, _ = start_server(tool, dataset, port)
    WebDriverWait(viewer.driver, SECONDS, 0.05).until(lambda _: "level" in viewer.text("status"))
    trial.canvas("the server is back", viewer.settled(), 0, 0, 0, 0, 1, 8, last, WHOLE[:2], (0, 255))
    return again


def try_errors(trial: Trial) -> None:
    """What goes wrong is said, in the server's word and in plain ones."""
    viewer = trial.viewer
    state = viewer.open(time=1, **GREY)
    told = viewer.text("status")
    trial.hold("a timestep that is not there", state == "error" and told == "404 NotPublished: this timestep is not there", told)
    trial.hold("then the canvas is empty", viewer.pixels() == bytes(4 * CANVAS * CANVAS))
    trial.shoot("missing")
    trial.hold("a dataset that is not there", viewer.open("none") == "error" and "none.idx is not beside" in viewer.text("status"))
    trial.hold("no dataset", viewer.open("") == "error" and "which dataset?" in viewer.text("status"))
    viewer.driver.find_element(By.ID, "file").send_keys(str(trial.wanted.folder / "s.idx"))
    WebDriverWait(viewer.driver, SECONDS, 0.05).until(lambda _: "level" in viewer.text("status"))
    trial.hold("a header that was chosen is opened", viewer.settled() == "done" and viewer.driver.title.startswith("s "))
    lines = [each["message"] for each in viewer.driver.get_log("browser")]
    wrong = [each for each in lines if "Uncaught" in each or "SyntaxError" in each or "TypeError" in each]
    trial.hold("the page has no error of its own", wrong == [], wrong)


def try_urls(trial: Trial, tool: str, folder: Path) -> None:
    """Each URL of the table in docs/SERVING.md gets the reply that stands there, and the samples that the box and levels say."""
    rows = re.findall(r"(?m)^\| `([a-z]+(?:&[^`]*)?)` \| (\d+)(?: (\w+))? \|", (HERE.parent / "docs/SERVING.md").read_text())
    trial.hold("the table has its rows", len(rows) > 10, len(rows))
    (folder / "v.raw").write_bytes(bytes(range(16)))
    subprocess.run([tool, "convert", folder / "v.idx", folder / "v.raw", "0 3 0 3", "a uint8", "V0101", "2", "2", "./%01x.bin",
                    "0 9 time%04d/", "0"], check=True, timeout=60)
    header = reference.parse_header((folder / "v.idx").read_bytes())
    raw = bytes(range(16))
    files = {file: reference.file_bytes(header, file, raw) for file in reference.files_of_step(header)}
    server, port = start_server(tool, folder / "v.idx")
    try:
        for query, status, word in rows:
            link = http.client.HTTPConnection("127.0.0.1", port, timeout=SECONDS)
            link.request("GET", f"/mod_visus?action={query}")
            reply = link.getresponse()
            body = reply.read()
            link.close()
            asked = dict(parse_qsl(query))
            wanted = word.encode() + b"\n"
            if not word:
                box = reference.box_word(asked["box"].encode())
                low, high = int(asked.get("fromh", 0)), int(asked.get("toh", 4))
                wanted = reference.answer(header, 0, box, low, high, files)
            trial.hold(query, (reply.status, body) == (int(status), wanted), (reply.status, body))
    finally:
        server.kill()
        server.communicate()


def start_server(tool: str, dataset: Path, port: int = 0) -> tuple["subprocess.Popen[bytes]", int]:
    """Starts a server; gives it, and the port where it listens."""
    server = subprocess.Popen([tool, "serve", dataset, f"127.0.0.1:{port}", "--workers", "8"], stdout=subprocess.DEVNULL,
                              stderr=subprocess.PIPE)
    assert server.stderr is not None
    return server, int(server.stderr.readline().decode().split(",")[0].rsplit(":", 1)[1])


def nginx_conf(folder: Path, port: int, servers: "dict[str, int]") -> Path:
    """nginx.conf with these ports and folders, within a configuration for a process of one's own; one server a dataset."""
    site = (HERE / "nginx.conf").read_text().replace("listen 8080;", f"listen 127.0.0.1:{port};")
    site = site.replace("root /usr/share/idxtool;", f"root {HERE};").replace("root /data;", f"root {folder};")
    site = site.replace("http://127.0.0.1:8081", "http://127.0.0.1:$behind")
    which = "".join(f"{name} {behind}; " for name, behind in servers.items())
    paths = "".join(f"{name}_temp_path {folder}/nginx-{name}; " for name in ("client_body", "proxy", "fastcgi", "uwsgi", "scgi"))
    user = "user root;\n" if os.geteuid() == 0 else ""
    (folder / "nginx.conf").write_text(
        f"{user}daemon off;\nworker_processes 1;\npid {folder}/nginx.pid;\nerror_log {folder}/nginx.log warn;\n"
        f"events {{ worker_connections 64; }}\nhttp {{\naccess_log off;\ntypes {{ text/html html; }}\n{paths}\n"
        f"map $arg_dataset $behind {{ default 1; {which}}}\n{site}}}\n")
    return folder / "nginx.conf"


def free_port() -> int:
    """A port of this machine that nothing listens at."""
    with socket.socket() as one:
        one.bind(("127.0.0.1", 0))
        return one.getsockname()[1]


def convert(tool: str, dataset: Path, raw: bytes, box: str, fields: str, step: int) -> None:
    """Writes a timestep."""
    path = dataset.with_suffix(".raw")
    path.write_bytes(raw)
    subprocess.run([tool, "convert", dataset, path, box, fields, "auto", "8", "16", "./%03x.bin", f"0 2 {dataset.stem}%02d/",
                    str(step)], check=True, timeout=60)


def wait_for_port(port: int) -> None:
    """Waits until something listens at a port."""
    end = time.monotonic() + SECONDS
    while time.monotonic() < end:
        try:
            socket.create_connection(("127.0.0.1", port), 1).close()
            return
        except OSError:
            time.sleep(0.05)


def main() -> int:
    tool = shutil.which(os.environ.get("IDXTOOL") or "idxtool")
    nginx = shutil.which("nginx", path=os.environ.get("PATH", "") + ":/usr/sbin")
    if tool is None or nginx is None:
        print("0 passed, 1 failed: there is no", "nginx" if tool else "idxtool")
        return 1
    with tempfile.TemporaryDirectory() as name, ExitStack() as ends:
        folder = Path(name)
        shots = Path(sys.argv[1]) if len(sys.argv) > 1 else folder
        shots.mkdir(parents=True, exist_ok=True)
        box = " ".join(f"0 {side - 1}" for side in SIDES)
        for step in (0, 2):
            convert(tool, folder / "s.idx", raw_volume(step), box, "hill uint8 + wind float32[3]", step)
        convert(tool, folder / "p.idx", raw_plane(), f"0 {PLANE[0] - 1} 0 {PLANE[1] - 1}", "f float32 + i int32", 0)
        servers, ports = {}, {}
        for each in "sp":
            servers[each], ports[each] = start_server(tool, folder / f"{each}.idx")
        ends.callback(lambda: [(each.kill(), each.communicate()) for each in servers.values()])
        port = free_port()
        front = subprocess.Popen([nginx, "-c", nginx_conf(folder, port, ports), "-e", folder / "nginx.log"])
        ends.callback(lambda: (front.terminate(), front.wait(SECONDS)))
        wait_for_port(port)
        viewer = Viewer(f"http://127.0.0.1:{port}", folder / "browser")
        ends.callback(viewer.driver.quit)
        trial = Trial(viewer, Wanted(folder, "s"), shots)
        try_first_level(trial)
        try_pictures(trial)
        try_plane(trial, Wanted(folder, "p"))
        try_controls(trial)
        try_keys(trial)
        servers["s"] = try_away(trial, tool, folder / "s.idx", servers["s"], ports["s"])
        try_errors(trial)
        try_urls(trial, tool, folder)
    print(f"{trial.passed} passed, {trial.failed} failed")
    return 1 if trial.failed else 0


if __name__ == "__main__":
    sys.exit(main())
