#!/usr/bin/python3
"""An evening with one command: the server, the page, a link for each seat, and the campaign for next week.

    host.py tower.json                      on this machine alone; for friends elsewhere:
    host.py tower.json --listen 0.0.0.0:8443 --cert chain.pem --key key.pem --page https://host.example:8443

Ctrl-C ends the evening: everybody's connection is closed, and the campaign as it is then is written beside
the old one. The same happens where the terminal is closed, and where the server or the page stops. With
`--log FILE` an evening also survives a machine that stops: the same words go on, with the same links.
"""

from __future__ import annotations

import argparse
import contextlib
import json
import os
import pathlib
import re
import signal
import socket
import subprocess
import sys
import tempfile
import threading
import time
from dataclasses import dataclass
from urllib.parse import urlencode

HERE = pathlib.Path(__file__).resolve().parent
PROGRAM = HERE.parent.parent / "tabletop"
MOST_CONNECTIONS = 1024  # that a server takes
STAMP = re.compile(r"-[0-9]{8}-[0-9]{6}$")  # of the day and the time, behind a campaign's name


class NoEvening(Exception):
    """An evening that can't begin, or whose campaign can't be kept; the text says why."""


def free_port() -> int:
    with socket.create_server(("127.0.0.1", 0)) as door:
        return door.getsockname()[1]


def started(words: list[str], stderr: int | None = None) -> subprocess.Popen[str]:
    """A program in a session of its own: Ctrl-C is for this one, which then ends the others in order."""
    return subprocess.Popen(
        words,
        start_new_session=True,
        stdin=subprocess.DEVNULL,
        stdout=subprocess.PIPE,
        stderr=stderr,
        text=True,
        encoding="utf-8",
    )


@dataclass
class Evening:
    """A server and a gateway that run."""

    port: int
    server: subprocess.Popen[str]
    gateway: subprocess.Popen[str] | None = None
    is_over: bool = False

    @classmethod
    def begin(cls, given: argparse.Namespace) -> Evening:
        """Begins both, and waits until they listen."""
        port = free_port()
        words = [given.program, "serve", str(given.campaign), str(port), str(MOST_CONNECTIONS)]
        words += ["--log", str(given.log)] if given.log else []
        evening = cls(port, started([*words, "--end"], subprocess.PIPE))
        threading.Thread(target=evening.hand_on_notes, daemon=True).start()
        try:
            evening.await_server()
            evening.open_page(given)
        except BaseException:
            evening.give_up()
            raise
        return evening

    def hand_on_notes(self) -> None:
        """What the server notes of its connections, but for those by which the evening is ended."""
        assert self.server.stderr is not None
        for line in self.server.stderr:
            if not self.is_over:
                sys.stderr.write(line)

    def await_server(self) -> None:
        """The server may have to be built first."""
        while not self.knock():
            if self.server.poll() is not None:
                assert self.server.stdout is not None
                raise NoEvening(self.server.stdout.read().strip() or "the server didn't begin")
            time.sleep(0.2)

    def open_page(self, given: argparse.Namespace) -> None:
        words = [sys.executable, str(HERE / "gateway.py"), "--table", f"127.0.0.1:{self.port}"]
        words += ["--listen", given.listen, "--origin", address_of_page(given)]
        if given.cert:
            words += ["--cert", given.cert, "--key", given.key]
        self.gateway = started(words)
        assert self.gateway.stdout is not None
        if not self.gateway.stdout.readline():  # it says where the page is, once it listens
            raise NoEvening("the page can't be opened")

    def give_up(self) -> None:
        for process in (self.gateway, self.server):
            if process is not None:
                process.kill()
                process.wait()

    def knock(self) -> bool:
        """Uses up one of the connections that the server takes; whether there was one left."""
        with contextlib.suppress(OSError), socket.create_connection(("127.0.0.1", self.port), 5):
            return True
        return False

    def wait(self) -> str:
        """Waits for the end of the evening, and says why it came."""
        assert self.gateway is not None
        try:
            while True:
                if self.server.poll() is not None:
                    return "the server stopped"
                if self.gateway.poll() is not None:
                    return "the page stopped"
                time.sleep(0.5)
        except KeyboardInterrupt:
            return "the evening is over"

    def campaign(self) -> str:
        """Ends both. The server prints the campaign once all connections that it takes were used up."""
        assert self.gateway is not None and self.server.stdout is not None
        self.is_over = True
        self.gateway.terminate()
        self.gateway.wait()
        for _ in range(MOST_CONNECTIONS):
            if self.server.poll() is not None or not self.knock():
                break
        lines = self.server.stdout.read().splitlines()
        self.server.wait()
        if self.server.returncode != 0 or not lines or not lines[-1].startswith('{"format"'):
            raise NoEvening(f"no campaign was written (status {self.server.returncode})")
        return lines[-1]


def address_of_page(given: argparse.Namespace) -> str:
    """The page's address as players have it."""
    return given.page or f"http{'s' if given.cert else ''}://{given.listen}"


def links(text: str, page: str) -> list[str]:
    """A line for each seat: who sits there, and the link by which that one does."""
    campaign = json.loads(text)
    lines = []
    for number, seat in enumerate(campaign["seats"]):
        names = [token["name"] for token in campaign["tokens"] if number in token["owners"]]
        who = "the game master" if number == 0 else ", ".join([f"seat {number}", *names[:1]])
        lines.append(f"  {who}: {page}/#{urlencode({'seat': number, 'key': seat['key']})}")
    return lines


def keep(campaign: pathlib.Path, text: str) -> pathlib.Path:
    """Writes the campaign into a new file that nobody else may read, beside the old one where that can be."""
    name = f"{STAMP.sub('', campaign.stem)}-{time.strftime('%Y%m%d-%H%M%S')}.json"
    try:
        return write_new(campaign.with_name(name), text)
    except OSError:
        return write_new(pathlib.Path(tempfile.gettempdir()) / name, text)


def write_new(file: pathlib.Path, text: str) -> pathlib.Path:
    with open(os.open(file, os.O_WRONLY | os.O_CREAT | os.O_EXCL, 0o600), "w", encoding="utf-8") as out:
        out.write(text + "\n")
    return file


def given_words(words: list[str]) -> argparse.Namespace:
    parser = argparse.ArgumentParser(description="An evening with one command.")
    parser.add_argument("campaign", type=pathlib.Path)
    parser.add_argument(
        "--program", default=os.environ.get("TABLETOP", str(PROGRAM)), help="the tabletop program"
    )
    parser.add_argument(
        "--log", type=pathlib.Path, help="a log: where the machine stops, the same words go on from it"
    )
    parser.add_argument("--listen", default="127.0.0.1:8080", help="where browsers come (127.0.0.1:8080)")
    parser.add_argument(
        "--page", help="the page's address as players have it, where it isn't that of --listen"
    )
    parser.add_argument(
        "--cert", help="a chain of certificates, and with --key its key: browsers come by https"
    )
    parser.add_argument("--key")
    given = parser.parse_args(words)
    if (given.cert is None) != (given.key is None):
        parser.error("--cert and --key go together")
    return given


def heed_signals(handler: signal.Handlers | signal._HANDLER) -> None:
    """Ctrl-C, a plain kill, and a terminal that is closed."""
    for name in ("SIGINT", "SIGTERM", "SIGHUP"):
        if hasattr(signal, name):
            signal.signal(getattr(signal, name), handler)


def main(words: list[str]) -> int:
    given = given_words(words)
    heed_signals(signal.default_int_handler)
    why = "there is no evening"
    try:
        evening = Evening.begin(given)
        print("A link is for one person alone: who has it can sit there.")
        print("\n".join(links(given.campaign.read_text("utf-8"), address_of_page(given))))
        print("Ctrl-C ends the evening.", flush=True)
        why = evening.wait()
        heed_signals(signal.SIG_IGN)  # what is to be kept is kept
        file = keep(given.campaign, evening.campaign())
    except (NoEvening, OSError) as fault:
        print(f"{why}: {fault}", file=sys.stderr)
        return 1
    except KeyboardInterrupt:
        return 1
    print(f"\n{why}; the campaign for next week is {file}")
    return 0


if __name__ == "__main__":
    sys.exit(main(sys.argv[1:]))
