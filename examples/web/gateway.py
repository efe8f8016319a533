#!/usr/bin/python3
"""The table in a browser: a gateway beside `tabletop serve`, and the page that it hands out.

    gateway.py --table 127.0.0.1:7000 --listen 127.0.0.1:8080 [--cert FILE --key FILE] [--origin URL ..]

A browser's WebSocket is one connection to the server, opened once the browser has sent a well-formed hello.
From then on each line goes through as it is, both ways. Nothing is kept but how many wrong keys came from an
address, and no line is logged. It needs python3-aiohttp.
"""

from __future__ import annotations

import argparse
import asyncio
import contextlib
import ipaddress
import json
import logging
import pathlib
import signal
import ssl
import sys
import time
from collections import deque
from dataclasses import dataclass, field
from typing import AsyncIterator, Callable, Iterator, cast

from aiohttp import WSCloseCode, WSMessage, WSMsgType, web
from aiohttp.web_protocol import RequestHandler

PAGE = pathlib.Path(__file__).resolve().parent / "page"
CONTENT_TYPES = {".html": "text/html", ".css": "text/css", ".js": "text/javascript"}

LONGEST_LINE = 4096  # bytes, of a browser
LONGEST_ANSWER = 1 << 23  # bytes, of the server, which cuts a seat for which more than 4 MiB wait
HELLO_SECONDS = 10  # for the hello, and for the server's answer to it
DOOR_SECONDS = 5  # for a connection to the server
FILES_SECONDS = 60  # that a connection may last which doesn't become a WebSocket
HEARTBEAT_SECONDS = 20  # by which a browser that is gone is noticed
MOST_SOCKETS = 128
MOST_SOCKETS_OF_AN_ADDRESS = 40
MOST_WRONG_KEYS_IN_AN_HOUR = 60
LONGEST_WAIT = 60  # seconds, after wrong keys of one address
HOUR = 3600

# Why a WebSocket ends, as its browser is told: numbers of the range that is left to programs.
BAD_HELLO, NO_TABLE, BAD_LINE, ENDED, SLOWED, FULL = 4000, 4001, 4002, 4003, 4004, 4005

HEADERS = {
    "Content-Security-Policy": "default-src 'none'; script-src 'self'; style-src 'self'; connect-src 'self'; "
    "img-src 'self' data:; base-uri 'none'; form-action 'none'; frame-ancestors 'none'",
    "Cross-Origin-Opener-Policy": "same-origin",
    "Cross-Origin-Resource-Policy": "same-origin",
    "Referrer-Policy": "no-referrer",
    "X-Content-Type-Options": "nosniff",
    "Cache-Control": "no-cache",
    "Server": "table",
}


class Refused(Exception):
    """A WebSocket that isn't to go on: a close code, and a sentence for whoever sits before it."""

    def __init__(self, code: int, words: str) -> None:
        super().__init__(words)
        self.code, self.words = code, words


# ---- lines
def line_of(message: WSMessage) -> bytes:
    """A browser's message as a line of the server, without LF."""
    if message.type is not WSMsgType.TEXT:
        raise Refused(BAD_LINE, "a line is text")
    try:
        line = message.data.encode("utf-8")
    except UnicodeEncodeError as fault:
        raise Refused(BAD_LINE, "that wasn't UTF-8") from fault
    if len(line) > LONGEST_LINE or b"\n" in line:
        raise Refused(BAD_LINE, f"a line has at most {LONGEST_LINE} bytes and no line end")
    return line


def is_hello(line: bytes) -> bool:
    """Whether the line has the form of a hello; whether its key is right the server says."""
    try:
        hello = json.loads(line)
    except (ValueError, RecursionError):
        return False
    if not isinstance(hello, dict) or sorted(hello) != ["do", "key", "seat"] or hello["do"] != "hello":
        return False
    seat, key = hello["seat"], hello["key"]
    if type(seat) is not int or not isinstance(key, str):
        return False
    return 0 <= seat <= 32 and 1 <= len(key.encode("utf-8", "surrogatepass")) <= 64


def is_wrong_key(answer: bytes) -> bool:
    return answer.startswith(b'{"n":0,') and b'"refused":"BadKey"' in answer


async def lines_from(reader: asyncio.StreamReader) -> AsyncIterator[bytes]:
    """The server's lines, without LF. More is read only once the lines before were taken."""
    rest = bytearray()
    while piece := await reader.read(65536):
        *lines, last = piece.split(b"\n")
        for line in lines:
            yield bytes(rest) + line
            rest.clear()
        rest += last
        if len(rest) > LONGEST_ANSWER:
            raise Refused(ENDED, "the table sent a line that is too long")


# ---- wrong keys
@dataclass
class Address:
    """What is remembered of an address from which browsers come."""

    wrong: int = 0  # keys in a row
    seen: float = 0.0  # when it last came
    until: float = 0.0  # no hello is taken before
    good: bool = False  # a right key came from here
    sockets: int = 0
    # Hellos go one at a time, so that many at once don't get past the wait.
    turn: asyncio.Lock = field(default_factory=asyncio.Lock)


@dataclass
class WrongKeys:
    """Slows down those who try keys.

    Each wrong key doubles its address's wait, up to a minute, and a right one ends it. A wrong key also uses
    up one of the connections that the server takes at all, so there is a most of them in an hour from
    everywhere; past it only addresses that gave a right key go on.
    """

    now: Callable[[], float] = time.monotonic
    known: dict[str, Address] = field(default_factory=dict)
    lately: deque[float] = field(default_factory=deque)

    def address(self, peer: str) -> Address:
        """What is remembered of the address; those that are long gone are forgotten."""
        now = self.now()
        for name, old in list(self.known.items()):
            if not old.sockets and not old.good and now > max(old.until, old.seen) + HOUR:
                del self.known[name]
        address = self.known.setdefault(house_of(peer), Address())
        address.seen = now
        return address

    def check(self, address: Address) -> None:
        """Refuses a hello that comes too early."""
        now = self.now()
        while self.lately and now > self.lately[0] + HOUR:
            self.lately.popleft()
        if now < address.until:
            seconds = int(address.until - now) + 1
            raise Refused(SLOWED, f"wrong keys came from your address; try again in {seconds} seconds")
        if len(self.lately) >= MOST_WRONG_KEYS_IN_AN_HOUR and not address.good:
            raise Refused(SLOWED, "too many wrong keys came in the last hour; try again later")

    def answered(self, address: Address, wrong: bool) -> None:
        """The server has answered a hello of that address."""
        if not wrong:
            address.wrong, address.until, address.good = 0, 0.0, True
            return
        address.wrong += 1
        address.until = self.now() + min(LONGEST_WAIT, 2 ** (address.wrong - 1))
        self.lately.append(self.now())


def house_of(peer: str) -> str:
    """An address as it is remembered: of version 6 the first 64 bits, since one house has them all."""
    address = ipaddress.ip_address(peer.partition("%")[0])
    if address.version == 6:
        return str(ipaddress.ip_network((int(address) >> 64 << 64, 64)))
    return str(address)


# ---- one browser at the table
class Session:
    """A WebSocket, and the connection to the server that is its own."""

    def __init__(self, gateway: Gateway, socket: web.WebSocketResponse, address: Address) -> None:
        self.gateway, self.socket, self.address = gateway, socket, address

    async def run(self) -> None:
        """Until either side ends."""
        hello = await self.hello()
        async with contextlib.AsyncExitStack() as turn:
            await turn.enter_async_context(self.address.turn)
            self.gateway.wrong_keys.check(self.address)
            reader, writer = await self.connection()
            try:
                writer.write(hello + b"\n")
                await self.carry(reader, writer, turn)
            finally:
                writer.close()
                with contextlib.suppress(OSError):
                    await writer.wait_closed()

    async def hello(self) -> bytes:
        try:
            message = await asyncio.wait_for(self.socket.receive(), HELLO_SECONDS)
        except asyncio.TimeoutError as fault:
            raise Refused(BAD_HELLO, "no hello came") from fault
        if message.type is not WSMsgType.TEXT or not is_hello(line := line_of(message)):
            raise Refused(BAD_HELLO, "the first line is to be a hello with a seat and a key")
        return line

    async def connection(self) -> tuple[asyncio.StreamReader, asyncio.StreamWriter]:
        try:
            return await asyncio.wait_for(asyncio.open_connection(*self.gateway.table), DOOR_SECONDS)
        except (OSError, asyncio.TimeoutError) as fault:
            raise Refused(NO_TABLE, "no table is open at the moment") from fault

    async def carry(
        self, reader: asyncio.StreamReader, writer: asyncio.StreamWriter, turn: contextlib.AsyncExitStack
    ) -> None:
        """Carries lines both ways until one way ends, and ends the other."""
        ways = {asyncio.ensure_future(self.down(reader, turn)), asyncio.ensure_future(self.up(writer))}
        try:
            done, _ = await asyncio.wait(ways, return_when=asyncio.FIRST_COMPLETED)
        finally:
            for way in ways:
                way.cancel()
            await asyncio.gather(*ways, return_exceptions=True)
        for way in done:
            way.result()

    async def down(self, reader: asyncio.StreamReader, turn: contextlib.AsyncExitStack) -> None:
        """The server's lines. The first tells whether the key was right; then the next hello may go."""
        lines = lines_from(reader)
        try:
            with contextlib.suppress(StopAsyncIteration):
                first = await asyncio.wait_for(lines.__anext__(), HELLO_SECONDS)
                self.gateway.wrong_keys.answered(self.address, is_wrong_key(first))
                await turn.aclose()
                await self.socket.send_str(first.decode("utf-8"))
            async for line in lines:
                await self.socket.send_str(line.decode("utf-8"))
        except (ConnectionError, UnicodeDecodeError) as fault:
            raise Refused(ENDED, "the connection to the table broke") from fault
        except asyncio.TimeoutError as fault:
            words = "the table doesn't answer: it may have taken as many connections as it takes"
            raise Refused(NO_TABLE, words) from fault
        raise Refused(ENDED, "the table ended the session")

    async def up(self, writer: asyncio.StreamWriter) -> None:
        """The browser's lines."""
        async for message in self.socket:
            writer.write(line_of(message) + b"\n")
            try:
                await writer.drain()
            except ConnectionError:
                await asyncio.sleep(HELLO_SECONDS)  # what the server still sent is handed on meanwhile
                return


# ---- the gateway
class Gateway:
    """The page's files, and a session for each WebSocket."""

    def __init__(self, table: tuple[str, int], origins: set[str]) -> None:
        self.table, self.origins = table, origins
        self.wrong_keys = WrongKeys()
        self.sockets: set[web.WebSocketResponse] = set()
        self.seated: set[RequestHandler] = set()  # connections that have become a WebSocket
        # As they are now: no other file is ever opened.
        self.files = {
            file.name: (file.read_bytes(), CONTENT_TYPES[file.suffix])
            for file in PAGE.iterdir()
            if file.suffix in CONTENT_TYPES
        }

    def application(self) -> web.Application:
        app = web.Application(client_max_size=0)
        app.router.add_get("/table", self.sit)
        app.router.add_get("/", self.file)
        app.router.add_get("/{name}", self.file)
        app.on_response_prepare.append(self.add_headers)
        return app

    @staticmethod
    async def add_headers(_request: web.Request, response: web.StreamResponse) -> None:
        response.headers.update(HEADERS)

    async def close_all(self) -> None:
        for socket in list(self.sockets):
            await socket.close(code=WSCloseCode.GOING_AWAY, message=b"the evening is over")

    async def file(self, request: web.Request) -> web.Response:
        name = request.match_info.get("name", "index.html")
        if name not in self.files:
            raise web.HTTPNotFound
        body, kind = self.files[name]
        return web.Response(body=body, content_type=kind, charset="utf-8")

    async def sit(self, request: web.Request) -> web.WebSocketResponse:
        """A WebSocket, until it ends; its browser is told why by the close code and a sentence."""
        if request.headers.get("Origin") not in self.origins:
            raise web.HTTPForbidden(text="this page isn't of this table")
        address = self.wrong_keys.address(request.remote or "0.0.0.0")
        # aiohttp refuses what has as many bytes as this, not only more.
        # Lines aren't compressed: of what is secret and what somebody chose, one length would be measured.
        socket = web.WebSocketResponse(
            max_msg_size=LONGEST_LINE + 1, heartbeat=HEARTBEAT_SECONDS, compress=False
        )
        await socket.prepare(request)
        with self.counted(request.protocol, socket, address):
            try:
                if len(self.sockets) > MOST_SOCKETS or address.sockets > MOST_SOCKETS_OF_AN_ADDRESS:
                    raise Refused(FULL, "too many connections")
                await Session(self, socket, address).run()
            except Refused as why:
                await socket.close(code=why.code, message=why.words.encode())
            finally:
                await socket.close(code=WSCloseCode.GOING_AWAY)
        return socket

    @contextlib.contextmanager
    def counted(
        self, connection: RequestHandler, socket: web.WebSocketResponse, address: Address
    ) -> Iterator[None]:
        self.seated.add(connection)
        self.sockets.add(socket)
        address.sockets += 1
        try:
            yield
        finally:
            address.sockets -= 1
            self.sockets.discard(socket)
            self.seated.discard(connection)

    def close_unless_seated(self, connection: RequestHandler) -> None:
        if connection not in self.seated:
            connection.force_close()

    async def listen(self, host: str, port: int, context: ssl.SSLContext | None) -> Listening:
        """Opens the port. A connection that sends little or nothing lasts as long as the page needs."""
        runner = web.AppRunner(self.application(), access_log=None)
        await runner.setup()
        loop, answering = asyncio.get_running_loop(), cast(web.Server, runner.server)

        def connection() -> RequestHandler:
            made = answering()
            loop.call_later(FILES_SECONDS, self.close_unless_seated, made)
            return made

        patience = HELLO_SECONDS if context else None
        server = await loop.create_server(connection, host, port, ssl=context, ssl_handshake_timeout=patience)
        return Listening(self, runner, server)


@dataclass
class Listening:
    """An open port, and what answers there."""

    gateway: Gateway
    runner: web.AppRunner
    server: asyncio.base_events.Server

    @property
    def port(self) -> int:
        return self.server.sockets[0].getsockname()[1]

    async def close(self) -> None:
        """Ends each browser's session with its reason."""
        self.server.close()
        await self.gateway.close_all()
        await self.runner.cleanup()


# ---- words
def place(word: str) -> tuple[str, int]:
    """An address and a port of HOST:PORT."""
    host, _, port = word.rpartition(":")
    return host.strip("[]") or "127.0.0.1", int(port)


def is_loopback(host: str) -> bool:
    if host == "localhost":
        return True
    try:
        return ipaddress.ip_address(host).is_loopback
    except ValueError:  # a name
        return False


def origins_of(host: str, port: int, secure: bool) -> set[str]:
    """What a browser that was led to this gateway by its address names as the origin of its page."""
    scheme, usual = ("https", 443) if secure else ("http", 80)
    names = {f"[{host}]" if ":" in host else host}
    if is_loopback(host):
        names |= {"localhost", "127.0.0.1"}
    return {f"{scheme}://{name}" + (f":{port}" if port != usual else "") for name in names}


def given_words(words: list[str]) -> argparse.Namespace:
    parser = argparse.ArgumentParser(description="The table in a browser: a gateway beside `tabletop serve`.")
    parser.add_argument("--table", type=place, default=("127.0.0.1", 7000), help="where the server listens")
    parser.add_argument("--listen", type=place, default=("127.0.0.1", 8080), help="where browsers come")
    parser.add_argument("--cert", type=pathlib.Path, help="a chain of certificates: browsers come by https")
    parser.add_argument("--key", type=pathlib.Path, help="the key of the certificate")
    parser.add_argument(
        "--origin", action="append", default=[], help="an address of the page besides --listen"
    )
    given = parser.parse_args(words)
    if (given.cert is None) != (given.key is None):
        parser.error("--cert and --key go together")
    if given.cert is None and not is_loopback(given.listen[0]):
        parser.error(
            "without --cert and --key keys would cross the network in the clear; listen on 127.0.0.1"
        )
    return given


async def run(given: argparse.Namespace) -> None:
    """Until SIGINT or SIGTERM comes."""
    context = None
    if given.cert:
        context = ssl.SSLContext(ssl.PROTOCOL_TLS_SERVER)
        context.minimum_version = ssl.TLSVersion.TLSv1_2
        context.load_cert_chain(given.cert, given.key)
    host, port = given.listen
    origins = origins_of(host, port, context is not None) | set(given.origin)
    listening = await Gateway(given.table, origins).listen(host, port, context)
    print("the page is at", *sorted(origins), flush=True)
    stop = asyncio.Event()
    for number in (signal.SIGINT, signal.SIGTERM):
        with contextlib.suppress(NotImplementedError):  # a system without them raises KeyboardInterrupt
            asyncio.get_running_loop().add_signal_handler(number, stop.set)
    await stop.wait()
    await listening.close()


def main(words: list[str]) -> int:
    given = given_words(words)
    # What a browser sent could stand in a warning about it.
    logging.getLogger("aiohttp").setLevel(logging.CRITICAL + 1)
    try:
        asyncio.run(run(given))
    except OSError as fault:  # a port that is taken, a certificate that can't be read
        print(f"no page at {given.listen[0]}:{given.listen[1]}: {fault}", file=sys.stderr)
        return 1
    return 0


if __name__ == "__main__":
    sys.exit(main(sys.argv[1:]))
