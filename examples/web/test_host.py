"""An evening with one command, against the built program: links, a line through the page, Ctrl-C, and a
campaign that opens again; one with a log that goes on after everything was killed. It needs python3-aiohttp and the program; without them, it is skipped.

    python3 -m unittest test_host
"""

import asyncio
import json
import os
import pathlib
import re
import shutil
import signal
import socket
import subprocess
import sys
import tempfile
import unittest
from urllib.parse import parse_qs

from evenings import EVENING, HERE, KEYS, PROGRAM, free_port, needs_program

try:
    import aiohttp
except ImportError:
    aiohttp = None


@unittest.skipUnless(aiohttp, "aiohttp isn't there")
@needs_program
class Host(unittest.TestCase):
    def setUp(self):
        folder = tempfile.TemporaryDirectory()
        self.addCleanup(folder.cleanup)
        self.campaign = pathlib.Path(folder.name) / "toll-house-20261130-190000.json"
        shutil.copy(EVENING, self.campaign)
        self.listen = f"127.0.0.1:{free_port()}"

    def started(self, *more):
        words = [sys.executable, str(HERE / "host.py"), str(self.campaign), "--listen", self.listen, *more]
        host = subprocess.Popen(
            [*words, "--program", PROGRAM], stdout=subprocess.PIPE, stderr=subprocess.PIPE, text=True
        )
        for each in (host.stdout.close, host.stderr.close, host.wait, host.kill):
            self.addCleanup(each)
        return host

    def links(self, host):
        """The lines with links that it prints, and what Mara's link gives."""
        said = [host.stdout.readline() for _ in range(5)]
        links = [re.search(r"http\S+", line)[0] for line in said[1:4]]
        self.assertEqual(links[1], f"http://{self.listen}/#seat=1&key=mara-of-the-road")
        return said, {key: value[0] for key, value in parse_qs(links[1].split("#")[1]).items()}

    def test_an_evening(self):
        host = self.started()
        said, given = self.links(host)
        self.assertIn("seat 1, Mara:", said[2])
        told = asyncio.run(self.walk(given, lambda: host.send_signal(signal.SIGINT)))
        self.assertEqual(told, (1001, "the evening is over"))
        said, told = host.communicate(timeout=120)
        self.assertEqual(host.returncode, 0)
        for key in KEYS:
            self.assertNotIn(key, said + told)  # behind the links
        file = pathlib.Path(re.search(r"next week is (.*)\n", said)[1])
        self.assertRegex(file.name, r"^toll-house-[0-9]{8}-[0-9]{6}\.json$")
        self.assertEqual(file.stat().st_mode & 0o777, 0o600)
        tokens = {token["id"]: token for token in json.loads(file.read_text("utf-8"))["tokens"]}
        self.assertEqual(tokens["1:mara"]["cell"], [2, 8])
        ran = subprocess.run([PROGRAM, "check", str(file)], capture_output=True, text=True, check=False)
        self.assertEqual(ran.stdout, "ok: 3 seats, 2 maps, 8 tokens\n")

    async def sit_down(self, browser, link):
        """Mara's page, and the first lines that it gets: the hello and what she sees."""
        origin = f"http://{self.listen}"
        page = await browser.ws_connect(f"{origin}/table", headers={"Origin": origin})
        await page.send_json({"do": "hello", "seat": int(link["seat"]), "key": link["key"]})
        return page, [await page.receive_json(timeout=30) for _ in range(2)]

    async def walk(self, link, end):
        """Mara takes a step, and the evening is ended so. What her page is told of that."""
        async with aiohttp.ClientSession() as browser:
            page, _ = await self.sit_down(browser, link)
            await page.send_json({"do": "move", "token": "1:mara", "path": [[2, 8]]})
            line = await page.receive_json(timeout=30)
            self.assertEqual((line["ok"], line["moved"]), ("move", 1))
            end()
            while (message := await page.receive(30)).type is aiohttp.WSMsgType.TEXT:
                pass
            return page.close_code, message.extra

    async def look(self, link):
        """How many lines Mara's seat has had, and where she stands."""
        async with aiohttp.ClientSession() as browser:
            _, (hello, seen) = await self.sit_down(browser, link)
        return hello["n"], {token["id"]: token for token in seen["full"]["tokens"]}["1:mara"]["cell"]

    def kill_all(self, host):
        """Kills the host, the server and the gateway at once."""
        below = subprocess.run(["pgrep", "-P", str(host.pid)], stdout=subprocess.PIPE, check=True).stdout
        for process in (host.pid, *map(int, below.split())):
            os.kill(process, signal.SIGKILL)

    def test_the_same_words_go_on(self):
        log = self.campaign.with_name("evening.log")
        host = self.started("--log", str(log))
        asyncio.run(self.walk(self.links(host)[1], lambda: self.kill_all(host)))
        again = self.started("--log", str(log))
        self.assertEqual(asyncio.run(self.look(self.links(again)[1])), (3, [2, 8]))
        again.send_signal(signal.SIGINT)
        said, _ = again.communicate(timeout=120)
        self.assertIn("next week is", said)

    def test_a_campaign_that_is_none(self):
        self.campaign.unlink()
        said, told = self.started().communicate(timeout=60)
        self.assertEqual((said, told), ("", "there is no evening: tabletop: read fault\n"))

    def test_an_address_that_is_taken(self):
        host, _, port = self.listen.partition(":")
        with socket.create_server((host, int(port))):
            host = self.started()
            said, told = host.communicate(timeout=60)
        self.assertEqual((host.returncode, said), (1, ""))
        self.assertIn("there is no evening: the page can't be opened", told)
        self.assertEqual(os.listdir(self.campaign.parent), [self.campaign.name])


class Words(unittest.TestCase):
    def test_a_log_goes_to_the_server(self):
        with tempfile.TemporaryDirectory() as folder:
            program, campaign = pathlib.Path(folder) / "program", pathlib.Path(folder) / "tower.json"
            program.write_text("#!/bin/sh\necho $1 $2 $4 $5 $6 $7\n", encoding="utf-8")
            program.chmod(0o700)
            words = [str(campaign), "--log", "evening.log", "--program", str(program)]
            host = subprocess.run(
                [sys.executable, str(HERE / "host.py"), *words], capture_output=True, text=True, check=False
            )
        self.assertEqual(host.stderr, f"there is no evening: serve {campaign} 1024 --log evening.log --end\n")


if __name__ == "__main__":
    unittest.main()
