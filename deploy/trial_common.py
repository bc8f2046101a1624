"""What the trials of this folder have in common. Python's own library is enough."""
from __future__ import annotations

import array
import http.client
import os
import shutil
import socket
import subprocess
import sys
import time
from contextlib import ExitStack
from pathlib import Path

HERE = Path(__file__).resolve().parent
SIDE = 64
"""The samples of a dataset along each of its three axes; a sample has four bytes."""
SECONDS = 60
"""After how long something that should have happened counts as failed."""


class Trial:
    """What passed and what failed."""

    def __init__(self) -> None:
        self.passed = 0
        self.failed = 0

    def hold(self, what: str, is_so: bool, seen: object = "") -> None:
        """Counts one thing that should be so."""
        if is_so:
            self.passed += 1
        else:
            self.failed += 1
            print("failed:", what, seen)


def program() -> str:
    """The program: what IDXTOOL says, else the one on the PATH."""
    found = shutil.which(os.environ.get("IDXTOOL") or "idxtool")
    if found is None:
        sys.exit("0 passed, 1 failed: there is no idxtool on the PATH, and IDXTOOL names none")
    return os.path.abspath(found)


def run(*words: object, **more: object) -> subprocess.CompletedProcess[str]:
    """Runs a command to its end."""
    return subprocess.run(list(map(str, words)), capture_output=True, text=True, timeout=240, **more)  # type: ignore


def raw_of(step: int) -> array.array:
    """The raw volume of a timestep: each sample is its own number, counted on from that of the step."""
    return array.array("I", range(step * SIDE ** 3, (step + 1) * SIDE ** 3))


BOX = " ".join([f"0 {SIDE - 1}"] * 3)


def convert_words(folder: Path, step: int, name: str = "n") -> list[str]:
    """The words that write a timestep."""
    return ["convert", str(folder / f"{name}.idx"), str(folder / f"{step}.raw"), BOX, "n uint32", "auto", "12", "16",
            "./%02x.bin", f"0 99 {name}%02d/", str(step)]


def free_ports(count: int) -> list[int]:
    """Ports of this machine that nothing listens at."""
    with ExitStack() as open_ones:
        sockets = [open_ones.enter_context(socket.socket()) for _ in range(count)]
        for each in sockets:
            each.bind(("127.0.0.1", 0))
        return [each.getsockname()[1] for each in sockets]


def upstream_file(folder: Path, ports: list[int], name: str = "idx") -> Path:
    """nginx-upstream.conf with these ports, under the name of an upstream."""
    text = (HERE / "nginx-upstream.conf").read_text()
    for old, new in zip((8081, 8082, 8083), ports):
        text = text.replace(f"127.0.0.1:{old}", f"127.0.0.1:{new}")
    text = text.replace("upstream idx {", f"upstream {name} {{").replace("$idx_generation", f"${name}_generation")
    (folder / f"{name}-upstream.conf").write_text(text)
    return folder / f"{name}-upstream.conf"


def site_text(folder: Path, port: int, data: Path, name: str = "idx") -> str:
    """nginx-idx.conf with this port and these folders, for the upstream of this name."""
    site = (HERE / "nginx-idx.conf").read_text()
    for old, new in (("listen 8080;", f"listen 127.0.0.1:{port};"), ("root /data;", f"root {data};"),
                     ("root /usr/share/idxtool;", f"root {HERE.parent / 'web'};"),
                     ("/var/cache/nginx/idx", f"{folder}/{name}-cache"), ("keys_zone=idx:", f"keys_zone={name}:"),
                     ("http://idx;", f"http://{name};"), ("proxy_cache idx;", f"proxy_cache {name};"),
                     ("$idx_generation", f"${name}_generation"),
                     ("add_header X-Cache", "add_header X-Server $upstream_addr; add_header X-Cache")):
        site = site.replace(old, new)
    return site


def nginx_file(folder: Path, sites: str, daemon: str = "off") -> Path:
    """A configuration for an nginx of one's own, with the upstreams' files of a folder and these sites."""
    paths = "".join(f"{name}_temp_path {folder}/nginx-{name};\n" for name in
                    ("client_body", "proxy", "fastcgi", "uwsgi", "scgi"))
    user = "user root;\n" if os.geteuid() == 0 else ""
    (folder / "nginx.conf").write_text(
        f"{user}daemon {daemon};\nworker_processes 2;\npid {folder}/nginx.pid;\nerror_log {folder}/nginx.log warn;\n"
        f"events {{ worker_connections 256; }}\nhttp {{\naccess_log off;\n{paths}"
        f"include {folder}/*-upstream.conf;\n{sites}}}\n")
    return folder / "nginx.conf"


def nginx_program(trial: Trial) -> "str | None":
    """nginx, which has to be installed."""
    found = shutil.which("nginx", path=os.environ.get("PATH", "") + ":/usr/sbin")
    trial.hold("nginx is installed", found is not None)
    return found


def slice_of(step: int, box: tuple[tuple[int, int], ...], plane: int, stride: int) -> bytes:
    """The samples of a box of a plane across the last axis, on multiples of a stride."""
    (left, right), (bottom, top) = ((-(-low // stride) * stride, high + 1) for low, high in box)
    first = step * SIDE ** 3 + plane * SIDE ** 2
    numbers = (first + y * SIDE + x for y in range(bottom, top, stride) for x in range(left, right, stride))
    return array.array("I", numbers).tobytes()


def fetch(port: int, target: str) -> tuple[int, bytes]:
    """One reply over a connection of its own."""
    link = http.client.HTTPConnection("127.0.0.1", port, timeout=SECONDS)
    link.request("GET", target)
    reply = link.getresponse()
    found = reply.status, reply.read()
    link.close()
    return found


def header(port: int, target: str, name: str) -> "str | None":
    """A field of the reply to a request."""
    link = http.client.HTTPConnection("127.0.0.1", port, timeout=SECONDS)
    link.request("GET", target)
    reply = link.getresponse()
    reply.read()
    link.close()
    return reply.getheader(name)


def target_of(step: int, box: tuple[tuple[int, int], ...], level: int, name: str = "n") -> str:
    """The target that asks for a box at the levels up to one."""
    bounds = "+".join(f"{low}+{high}" for low, high in box)
    return f"/mod_visus?action=boxquery&dataset={name}&time={step}&box={bounds}&toh={level}"


def wait_for_port(port: int) -> None:
    """Waits until something listens at a port."""
    end = time.monotonic() + SECONDS
    while time.monotonic() < end:
        try:
            socket.create_connection(("127.0.0.1", port), 1).close()
            return
        except OSError:
            time.sleep(0.05)
