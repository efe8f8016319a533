"""Random evenings played over the gateway and the built program: what each seat's browser is sent is what
`play` prints for that seat, and the campaign is the same at the end. It needs python3-aiohttp and the
program; without them it is skipped. EVENINGS=100 plays as many.

    python3 -m unittest test_transcripts
"""

import asyncio
import contextlib
import json
import subprocess
import unittest

from evenings import EVENING, KEYS, MANY, PROGRAM, AtRandom
from evenings import free_port, lines_to, listens, needs_program, played, script_of, wait_for

try:
    import aiohttp

    import gateway
except ImportError:
    aiohttp = None

SEATS = range(len(KEYS))
MANY_LINES = 60


class Browser:
    """A WebSocket at a seat, and what came over it."""

    def __init__(self, socket):
        self.socket, self.frames = socket, []

    async def give(self, line):
        """Sends a line, and takes in what comes up to its answer."""
        await self.socket.send_str(json.dumps(line))
        while "n" not in json.loads(await self.frame()):
            pass

    async def frame(self):
        message = await self.socket.receive(60)
        assert message.type is aiohttp.WSMsgType.TEXT, message
        self.frames.append(message.data)
        return message.data


@unittest.skipUnless(aiohttp, "aiohttp isn't there")
@needs_program
class Transcripts(unittest.TestCase):
    def test_evenings_at_random(self):
        for number in range(MANY):
            with self.subTest(evening=number):
                asyncio.run(self.compare(number))

    async def compare(self, number):
        byes = [(seat, {"do": "bye"}) for seat in SEATS]
        lines = [*AtRandom(5000 + number, MANY_LINES).lines(), *byes]
        port = free_port()
        words = [PROGRAM, "serve", str(EVENING), str(port), str(len(KEYS) + 1), "--end"]
        server = subprocess.Popen(words, stdout=subprocess.PIPE, stderr=subprocess.PIPE, text=True)
        try:
            wait_for(lambda: listens(port))
            frames = await self.play(port, lines)
            printed, told = server.communicate(timeout=120)
        finally:
            server.kill()
            server.wait()
        wanted = played(script_of(lines), EVENING, "--end")
        for seat in SEATS:
            self.assertEqual(frames[seat], lines_to(seat, wanted))
        self.assertEqual(printed.splitlines()[-1], wanted[-1])
        for key in KEYS:
            self.assertNotIn(key, told)

    async def play(self, port, lines):
        """What each seat's browser is sent where the lines come one after another."""
        door = gateway.Gateway(("127.0.0.1", port), {"http://here"})
        async with contextlib.AsyncExitStack() as stack:
            listening = await door.listen("127.0.0.1", 0, None)
            stack.push_async_callback(listening.close)
            client = await stack.enter_async_context(aiohttp.ClientSession())
            url = f"http://127.0.0.1:{listening.port}/table"
            browsers = {}
            for seat, line in lines:
                if seat not in browsers:
                    sitting = client.ws_connect(url, headers={"Origin": "http://here"}, max_msg_size=0)
                    browsers[seat] = Browser(await stack.enter_async_context(sitting))
                await browsers[seat].give(line)
            return [browsers[seat].frames for seat in SEATS]


if __name__ == "__main__":
    unittest.main()
