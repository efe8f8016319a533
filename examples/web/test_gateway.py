"""The gateway against a stand-in for the server: what it lets through, what it refuses, and what it tells. It
needs python3-aiohttp; without it, it is skipped.

    python3 -m unittest test_gateway
"""

import asyncio
import contextlib
import json
import ssl
import subprocess
import sys
import tempfile
import unittest

from evenings import HERE, free_port

try:
    import aiohttp

    import gateway
except ImportError:
    aiohttp = None

HELLO = '{"do":"hello","key":"k","seat":1}'
JOINED = b'{"n":1,"ok":"hello","seat":1,"seats":2}\n'
WRONG = b'{"n":0,"no":24,"refused":"BadKey"}\n'
BAD_HELLOS = [
    "",
    "{",
    "[]",
    "1",
    '"hello"',
    "[" * 2000,
    '{"do":"look"}',
    '{"do":"hello"}',
    '{"do":"hello","key":"k"}',
    '{"do":"hello","seat":1}',
    '{"do":"hello","key":"k","seat":"1"}',
    '{"do":"hello","key":"k","seat":1.0}',
    '{"do":"hello","key":"k","seat":true}',
    '{"do":"hello","key":"k","seat":-1}',
    '{"do":"hello","key":"k","seat":33}',
    '{"do":"hello","key":"","seat":1}',
    '{"do":"hello","key":"' + "k" * 65 + '","seat":1}',
    '{"do":"hello","key":1,"seat":1}',
    '{"do":"hello","key":"k","seat":1,"x":1}',
]


class StandIn:
    """Answers each first line by `answer`, and gives what came on to `came`."""

    def __init__(self):
        self.connections, self.came, self.ended = 0, bytearray(), 0
        self.answer, self.then = JOINED, None

    async def serve(self, reader, writer):
        self.connections += 1
        with contextlib.suppress(ConnectionError):
            self.came += await reader.readline()
            if self.answer is not None:
                writer.write(self.answer)
            if self.then:
                await self.then(reader, writer)
            else:
                while piece := await reader.read(65536):
                    self.came += piece
        self.ended += 1
        writer.close()


@unittest.skipUnless(aiohttp, "aiohttp isn't there")
class Gateway(unittest.IsolatedAsyncioTestCase):
    async def asyncSetUp(self):
        asyncio.get_running_loop().set_debug(False)
        self.server = StandIn()
        self.door = await asyncio.start_server(self.server.serve, "127.0.0.1", 0)
        self.gateway = gateway.Gateway(self.door.sockets[0].getsockname()[:2], set())
        self.listening = await self.gateway.listen("127.0.0.1", 0, None)
        self.port = self.listening.port
        self.base = f"http://127.0.0.1:{self.port}"
        self.gateway.origins = gateway.origins_of("127.0.0.1", self.port, secure=False)
        self.browser = aiohttp.ClientSession()

    async def asyncTearDown(self):
        await self.browser.close()
        await self.listening.close()
        await self.once(lambda: self.server.ended == self.server.connections)
        self.door.close()

    def limit(self, name, value):
        """Another value of the gateway's, for this test."""
        self.addCleanup(setattr, gateway, name, getattr(gateway, name))
        setattr(gateway, name, value)

    def sit(self, origin=None, **more):
        return self.browser.ws_connect(
            self.base + "/table", headers={"Origin": origin or self.base}, max_msg_size=0, **more
        )

    async def close_of(self, socket):
        """The close code and its sentence."""
        while (message := await socket.receive(10)).type not in (
            aiohttp.WSMsgType.CLOSE,
            aiohttp.WSMsgType.CLOSED,
        ):
            pass
        return socket.close_code, message.extra

    async def test_only_pages_of_this_table(self):
        for origin in (
            "http://evil.example",
            self.base + "0",
            "null",
            f"https://127.0.0.1:{self.port}",
            f"http://127.0.0.1.evil.example:{self.port}",
        ):
            with self.subTest(origin), self.assertRaises(aiohttp.WSServerHandshakeError) as refused:
                await self.sit(origin)
            self.assertEqual(refused.exception.status, 403)
        with self.assertRaises(aiohttp.WSServerHandshakeError):
            await self.browser.ws_connect(self.base + "/table")
        self.assertEqual(self.server.connections, 0)

    async def test_no_connection_without_a_hello(self):
        for line in BAD_HELLOS:
            with self.subTest(line[:60]):
                async with self.sit() as socket:
                    await socket.send_str(line)
                    self.assertEqual((await self.close_of(socket))[0], gateway.BAD_HELLO)
        async with self.sit() as socket:
            await socket.send_bytes(HELLO.encode())
            self.assertEqual((await self.close_of(socket))[0], gateway.BAD_HELLO)
        async with self.sit():
            pass
        self.assertEqual((self.server.connections, self.gateway.sockets), (0, set()))

    async def test_lines_as_they_are(self):
        hello = ' {"seat" : 1,\t"key":"\\u00e4\\"", "do":"hello"}'
        said = ['{"do":"say","text":"ä🐉 \\u0000"}', "no JSON", " ", "x" * 4096]
        told = ['{"from":0,"text":"🐉"}', "y" * 3_000_000, "", "z"]

        async def then(reader, writer):
            for line in said:
                self.server.came += await reader.readline()
            writer.write("".join(line + "\n" for line in told).encode())
            self.server.came += await reader.read()

        self.server.then = then
        async with self.sit() as socket:
            for line in (hello, *said):
                await socket.send_str(line)
            got = [(await socket.receive(10)).data for _ in range(1 + len(told))]
        self.assertEqual(got, [JOINED.decode().strip(), *told])
        await self.once(lambda: self.server.ended)
        self.assertEqual(self.server.came.decode(), "".join(line + "\n" for line in (hello, *said)))

    async def once(self, what):
        for _ in range(500):
            if what():
                return
            await asyncio.sleep(0.01)
        self.fail("it didn't come")

    async def test_lines_that_are_none(self):
        for given, code in (
            (("x" * 4097,), 1009),
            (("ä" * 2049,), 1009),
            (("a\nb",), gateway.BAD_LINE),
            ((b"x",), gateway.BAD_LINE),
        ):
            with self.subTest(str(given)[:20]):
                async with self.sit() as socket:
                    await socket.send_str(HELLO)
                    await socket.receive(10)
                    await (socket.send_bytes if isinstance(given[0], bytes) else socket.send_str)(*given)
                    self.assertEqual((await self.close_of(socket))[0], code)
        await self.once(lambda: self.server.ended == 4)
        self.assertEqual(self.server.came.decode(), (HELLO + "\n") * 4)

    async def test_the_ends_are_told(self):
        async def then(_reader, _writer):
            return

        self.server.then = then
        async with self.sit() as socket:
            await socket.send_str(HELLO)
            self.assertEqual((await socket.receive(10)).data, JOINED.decode().strip())
            self.assertEqual(await self.close_of(socket), (gateway.ENDED, "the table ended the session"))
        self.door.close()
        await self.door.wait_closed()
        async with self.sit() as socket:
            await socket.send_str(HELLO)
            self.assertEqual(
                await self.close_of(socket), (gateway.NO_TABLE, "no table is open at the moment")
            )

    async def test_a_server_that_takes_no_more_connections(self):
        self.server.answer = None
        self.limit("HELLO_SECONDS", 0.2)
        async with self.sit() as socket:
            await socket.send_str(HELLO)
            self.assertEqual((await self.close_of(socket))[0], gateway.NO_TABLE)
        async with self.sit() as socket:
            self.assertEqual((await self.close_of(socket))[0], gateway.BAD_HELLO)

    async def test_a_browser_that_leaves(self):
        async with self.sit() as socket:
            await socket.send_str(HELLO)
            await socket.receive(10)
        await self.once(lambda: self.server.ended == 1)
        await self.once(lambda: not self.gateway.sockets)

    async def test_a_browser_that_does_not_read(self):
        wrote = 0

        async def then(_reader, writer):
            nonlocal wrote
            line = b"x" * 65535 + b"\n"
            while wrote < 200 << 20:
                writer.write(line)
                await writer.drain()
                wrote += len(line)

        self.server.then = then
        reader, writer = await asyncio.open_connection("127.0.0.1", self.port)
        head = ["GET /table HTTP/1.1", "Host: x", f"Origin: {self.base}", "Upgrade: websocket"]
        head += [
            "Connection: Upgrade",
            "Sec-WebSocket-Version: 13",
            f"Sec-WebSocket-Key: {'A' * 22}==",
            "",
            "",
        ]
        writer.write("\r\n".join(head).encode())
        await reader.readuntil(b"\r\n\r\n")
        body = HELLO.encode()
        writer.write(bytes([0x81, 0x80 | len(body), 0, 0, 0, 0]) + body)
        writer.transport.pause_reading()
        await asyncio.sleep(1.5)
        first = wrote
        await asyncio.sleep(0.5)
        self.assertEqual(first, wrote)
        self.assertLess(wrote, 24 << 20)  # what waits lies in the system's buffers and the server's own queue
        writer.close()

    async def test_wrong_keys(self):
        now = 1000.0
        self.gateway.wrong_keys.now = lambda: now

        async def tried():
            async with self.sit() as socket:
                await socket.send_str(HELLO)
                message = await socket.receive(10)
                return message.data if message.type is aiohttp.WSMsgType.TEXT else socket.close_code

        self.server.answer = WRONG
        for wait in (1, 2, 4, 8, 16, 32, 60, 60):
            self.assertEqual(await tried(), WRONG.decode().strip())
            self.assertEqual(await tried(), gateway.SLOWED)
            now += wait - 0.1
            self.assertEqual(await tried(), gateway.SLOWED)
            now += 0.2
        self.assertEqual(self.server.connections, 8)
        self.server.answer = JOINED
        self.assertEqual([await tried(), await tried()], [JOINED.decode().strip()] * 2)
        # Many at once from one address: one goes through, the others meet its wait.
        self.server.answer = WRONG
        self.assertEqual(
            sorted(map(str, await asyncio.gather(*(tried() for _ in range(8))))),
            [str(gateway.SLOWED)] * 7 + [WRONG.decode().strip()],
        )

    async def test_wrong_keys_of_many_addresses(self):
        now = 0.0
        addresses = gateway.WrongKeys(now=lambda: now)
        friend = addresses.address("192.0.2.1")
        addresses.answered(friend, wrong=False)
        for number in range(gateway.MOST_WRONG_KEYS_IN_AN_HOUR):
            addresses.answered(addresses.address(f"198.51.100.{number}"), wrong=True)
        with self.assertRaises(gateway.Refused):
            addresses.check(addresses.address("203.0.113.1"))
        addresses.check(friend)
        now = 3601.0
        addresses.check(addresses.address("203.0.113.1"))
        self.assertEqual(addresses.address("2001:db8::1"), addresses.address("2001:db8::2:3"))

    async def test_the_page(self):
        async with self.browser.get(self.base + "/") as answer:
            self.assertEqual((answer.status, answer.content_type), (200, "text/html"))
            self.assertIn("default-src 'none'", answer.headers["Content-Security-Policy"])
        for name, kind in (("main.js", "text/javascript"), ("table.css", "text/css")):
            async with self.browser.get(f"{self.base}/{name}") as answer:
                self.assertEqual(
                    (answer.status, answer.content_type, await answer.read()),
                    (200, kind, (HERE / "page" / name).read_bytes()),
                )
        for name in ("gateway.py", "..%2fgateway.py", "page", "index.html/", "x" * 5000):
            async with self.browser.get(f"{self.base}/{name}") as answer:
                self.assertIn(answer.status, (400, 404))
        async with self.browser.post(self.base + "/", data=b"x") as answer:
            self.assertEqual(answer.status, 405)

    async def test_connections_that_send_nothing(self):
        self.limit("FILES_SECONDS", 0.3)
        for sent in (b"", b"GET / HTTP/1.1\r\nHost:", b"GET / HTTP/1.1\r\nHost: x\r\n\r\n"):
            with self.subTest(sent):
                reader, writer = await asyncio.open_connection("127.0.0.1", self.port)
                writer.write(sent)
                await asyncio.wait_for(reader.read(), 10)  # up to the end
                writer.close()
        async with self.sit() as socket:
            await socket.send_str(HELLO)
            await socket.receive(10)
            await asyncio.sleep(0.6)
            await socket.send_str("still here")
            await self.once(lambda: b"still here" in self.server.came)


@unittest.skipUnless(aiohttp, "aiohttp isn't there")
class Program(unittest.TestCase):
    def started(self, table, *words):
        """The program, once it listens, and its port."""
        port = free_port()
        place = ["--table", "%s:%d" % table, "--listen", f"127.0.0.1:{port}"]
        process = subprocess.Popen(
            [sys.executable, str(HERE / "gateway.py"), *place, *words],
            stdout=subprocess.PIPE,
            stderr=subprocess.STDOUT,
            text=True,
        )
        self.addCleanup(process.stdout.close)
        self.addCleanup(process.wait)
        self.addCleanup(process.kill)
        return process, port, process.stdout.readline()

    def test_no_keys_in_the_clear(self):
        words = [sys.executable, str(HERE / "gateway.py"), "--listen", "0.0.0.0:0"]
        ran = subprocess.run(words, capture_output=True, text=True, check=False)
        self.assertEqual(ran.returncode, 2)
        why = "without --cert and --key keys would cross the network in the clear"
        self.assertIn(why, " ".join(ran.stderr.split()))

    def test_keys_are_in_no_log(self):
        async def sit(port, table):
            hello = {"do": "hello", "seat": 1}
            keys = ["first-key-of-all", "second-key", "x" * 70, "third\nkey"]
            async with aiohttp.ClientSession() as browser:
                for key, answer in zip(keys, (JOINED, WRONG, WRONG, WRONG)):
                    table.answer = answer
                    origin = f"http://127.0.0.1:{port}"
                    async with browser.ws_connect(f"{origin}/table", headers={"Origin": origin}) as page:
                        await page.send_json({**hello, "key": key})
                        await page.receive(10)
                        with contextlib.suppress(ConnectionError):  # most are closed by now
                            await page.send_bytes(b"second-key")
                async with browser.get(f"http://127.0.0.1:{port}/first-key-of-all?second-key"):
                    pass
            reader, writer = await asyncio.open_connection("127.0.0.1", port)
            writer.write(b"first-key-of-all second-key\r\n\r\n")
            await reader.read()
            writer.close()

        async def play():
            table = StandIn()
            async with await asyncio.start_server(table.serve, "127.0.0.1", 0) as door:
                started = await asyncio.to_thread(self.started, door.sockets[0].getsockname()[:2])
                await sit(started[1], table)
            return started[0]

        process = asyncio.run(play())
        process.terminate()
        told = process.stdout.read()
        self.assertEqual((told, process.wait()), ("", 0))

    def test_tls(self):
        with tempfile.TemporaryDirectory() as folder:
            cert, key = f"{folder}/cert.pem", f"{folder}/key.pem"
            made = [
                "openssl",
                "req",
                "-x509",
                "-newkey",
                "ec",
                "-pkeyopt",
                "ec_paramgen_curve:P-256",
                "-nodes",
            ]
            made += ["-keyout", key, "-out", cert, "-days", "2", "-subj", "/CN=localhost"]
            made += ["-addext", "subjectAltName=DNS:localhost"]
            subprocess.run(made, check=True, capture_output=True)
            asyncio.run(self.by_tls(cert, key))

    async def by_tls(self, cert, key):
        async with await asyncio.start_server(StandIn().serve, "127.0.0.1", 0) as door:
            table = door.sockets[0].getsockname()[:2]
            _, port, said = await asyncio.to_thread(self.started, table, "--cert", cert, "--key", key)
            base = f"https://localhost:{port}"
            self.assertIn(base, said)
            context = ssl.create_default_context(cafile=cert)
            async with aiohttp.ClientSession() as browser:
                async with browser.ws_connect(f"{base}/table", headers={"Origin": base}, ssl=context) as page:
                    await page.send_str(HELLO)
                    self.assertEqual(json.loads((await page.receive(10)).data)["ok"], "hello")
                plain = {"Origin": base.replace("https", "http")}
                with self.assertRaises(aiohttp.WSServerHandshakeError):
                    await browser.ws_connect(f"{base}/table", headers=plain, ssl=context)


if __name__ == "__main__":
    unittest.main()
