"""The documents are held to what they say: how long they may be, which crates and files they name and in which order, where a promise is
carried, and what the commands of README.md print. Without the built program the commands are skipped.

    cd .ci && python3 -m unittest test_documents
"""

import collections
import os
import pathlib
import re
import shutil
import socket
import subprocess
import tempfile
import time
import unittest

ROOT = pathlib.Path(__file__).resolve().parent.parent
CRATES = ROOT / "crates"
PROGRAM = os.environ.get("TABLETOP", str(CRATES / "tabletop" / "out" / "tabletop"))
README, DESIGN, THEOREMS = ROOT / "README.md", ROOT / "docs" / "DESIGN.md", ROOT / "docs" / "THEOREMS.md"
MOST_LINES, MOST_COLUMNS = 170, 140
# The words of all documents, and the README's lines, stood so when there were so many crates; each that came since adds a row, and words.
MOST_WORDS, CRATES_THEN, MOST_WORDS_OF_A_CRATE = 38_000, 53, 1_200
MOST_WORDS_OF_A_PROMISE = 25
MOST_LINES_OF_A_DECISION, MOST_COLUMNS_OF_A_DECISION = 3, 160
# Commands whose names stand for nothing else in the code: one of the game master's and one of everybody's.
COMMANDS = ("Unwall", "Setprop")


def text(page):
    return page.read_text(encoding="utf-8")


def documents():
    return [README, *sorted((ROOT / "docs").glob("*.md"))]


def section(page, heading):
    """What stands between a heading and the next one of its rank."""
    return re.search(rf"^{re.escape(heading)}\n(.*?)(?=^{re.escape(heading.split()[0])} |\Z)", text(page), re.M | re.S)[1]


def rows(part):
    """The cells of each row of tables but their headings; the outer bars may be missing."""
    lines = [line for line in part.splitlines() if " | " in line and not re.fullmatch(r"[-| ]+", line)]
    return [[cell.strip() for cell in line.strip("| ").split(" | ")] for line in lines]


def listed():
    """The crates of crates.txt, as pairs of their heading and their name."""
    found, heading = [], ""
    for line in text(ROOT / "crates.txt").splitlines():
        if line.startswith("# "):
            heading = line[2:]
        elif line:
            found.append((heading, re.match(r"\w+", line)[0]))
    return found


def sources(crate):
    return [file for part in ("src", "specs", "proofs") for file in (CRATES / crate / part).rglob("*") if file.suffix in (".rt", ".antt")]


def words_of(crate):
    """All words that stand in a crate's sources, and the names of its files and folders."""
    found = {crate}
    for file in sources(crate):
        found.update(re.findall(r"[\w'-]+", text(file)), re.findall(r"[\w']+", text(file)), file.with_suffix("").parts, [file.name])
    return found


def contracts_of(crate):
    """The names of the clauses of each function of a crate, by the function's name, and under "" those that an impl gives by proofs."""
    found, function = collections.defaultdict(set), ""
    for file in (CRATES / crate / "src").rglob("*.rt"):
        for line in text(file).splitlines():
            function = (re.search(r"\bfn (\w+)", line) or [0, function])[1]
            for kind, clause in re.findall(r"^\s*(ensures|requires|ghost)\*? (\w+)", line):
                found["" if kind == "ghost" else function].add(clause)
    return found


def code(cell):
    """The words of a cell that stand between backticks."""
    return {word for quoted in re.findall(r"`([^`]+)`", cell) for word in re.findall(r"[A-Za-z_][\w'-]*", quoted)}


class Limits(unittest.TestCase):
    def test_the_readme_is_short(self):
        lines = text(README).splitlines()
        self.assertLessEqual(len(lines), MOST_LINES + len(listed()) - CRATES_THEN)
        self.assertEqual([line for line in lines if len(line) > MOST_COLUMNS], [])

    def test_all_documents_are_short(self):
        most = MOST_WORDS + MOST_WORDS_OF_A_CRATE * (len(listed()) - CRATES_THEN)
        self.assertLessEqual(sum(len(text(page).split()) for page in documents()), most)

    def test_a_decision_is_short(self):
        for bullet in re.findall(r"^- .*\n(?:  .*\n)*", text(ROOT / "docs" / "DECISIONS.md"), re.M):
            with self.subTest(decision=bullet[:60]):
                lines = bullet.splitlines()
                self.assertLessEqual(len(lines), MOST_LINES_OF_A_DECISION)
                self.assertLessEqual(max(map(len, lines)), MOST_COLUMNS_OF_A_DECISION)

    def test_files_that_are_named_are_there(self):
        for page in [*documents(), ROOT / "bench" / "README.md"]:
            for name in re.findall(r"`(?:\./)?((?:docs|examples|bench|crates|\.ci)/[\w./-]*)", text(page)):
                if "/out/" in name:  # what is built
                    continue
                with self.subTest(page=page.name, name=name):
                    places = [ROOT / name, *(ROOT / name).parent.glob((ROOT / name).name + ".antt")]
                    self.assertTrue(any(place.exists() for place in places))


class Crates(unittest.TestCase):
    def test_the_map_of_the_design_is_the_order_of_the_list(self):
        part, found, layer = section(DESIGN, "## Map of the crates"), [], ""
        for heading, crate in re.findall(r"^(?:\*\*([\w ]+)\*\*, entered|- `(\w+)`:)", part, re.M):
            layer = heading or layer
            found += [(layer, crate)] if crate else []
        self.assertEqual(found, listed())

    def test_each_crate_has_its_row_and_its_promises(self):
        crates = [crate for _, crate in listed()]
        self.assertEqual([row[0].strip("`") for row in rows(section(README, "## Crate by crate"))[1:]], crates)
        self.assertEqual(re.findall(r"^### (\w+)$", text(THEOREMS), re.M), crates)
        layers = list(dict.fromkeys(layer for layer, _ in listed()))
        self.assertEqual([name for name in re.findall(r"^## (.+)$", text(THEOREMS), re.M) if name in layers], layers)

    def test_a_row_is_short_and_names_its_contract(self):
        for crate, promise, *_ in rows(section(README, "## Crate by crate"))[1:]:
            with self.subTest(crate=crate):
                self.assertLessEqual(len(promise.split()), MOST_WORDS_OF_A_PROMISE)
                self.assertTrue(code(promise))
                self.assertEqual(code(promise) - words_of(crate.strip("`")) - {"proofs"}, set())

    def test_what_carries_a_promise_stands_in_its_crate(self):
        known = {crate: words_of(crate) for _, crate in listed()}
        for crate, words in known.items():
            for row in rows(section(THEOREMS, f"### {crate}").split("\n## ")[0])[1:]:
                named = code(row[-1])
                # (a cell that names another crate may cite its words)
                others = set().union(*(known[word] for word in named & known.keys()))
                with self.subTest(crate=crate, promise=row[0][:60]):
                    self.assertEqual(named - words - others - known.keys() - {"specs", "proofs"}, set())

    def test_a_clause_stands_in_the_contract_of_its_function(self):
        for _, crate in listed():
            contracts = contracts_of(crate)
            for row in rows(section(THEOREMS, f"### {crate}").split("\n## ")[0])[1:]:
                cell = re.sub(r"\([^()]*\)", "", row[-1])
                for functions, clauses in re.findall(r"((?:`[^`]+`[^`;:]*)+): ((?:`\w+`(?:, )?)+)", cell):
                    names = [name.split("::")[-1] for name in re.findall(r"`([^`]+)`", functions)]
                    has = set().union(contracts[""], *(contracts[name] for name in names))
                    with self.subTest(crate=crate, functions=functions):
                        self.assertEqual(set(re.findall(r"\w+", clauses)) - has, set())

    def test_crates_without_tests_say_what_runs_them(self):
        named = code(section(THEOREMS, "## Which runs test which crate"))
        for _, crate in listed():
            if not any("#[test]" in text(file) for file in sources(crate)):
                self.assertIn(crate, named)

    def test_the_places_of_a_command_are_all_named(self):
        told = {crate.strip("`"): cell for crate, cell in rows(section(DESIGN, "## To add a command: these places"))[1:]}
        for crate, cell in told.items():
            for name in re.findall(r"`((?:src|specs|proofs)/[\w/.]+)`", cell):
                self.assertTrue(any((CRATES / crate).glob(name + "*")), f"{crate}/{name}")
        for _, crate in listed():
            for file in sources(crate):
                lines = [line for line in text(file).splitlines() if not re.match(r"\s*(ghost )?use ", line)]
                if "tests" not in str(file) and any(re.search(rf"\b{word}\b", line) for line in lines for word in COMMANDS):
                    name = str(file.relative_to(CRATES / crate).with_suffix(""))
                    with self.subTest(crate=crate, file=name):
                        self.assertTrue(name in told.get(crate, "") or file.stem == "Answers" and file.parent.name in told[crate])


class Figures(unittest.TestCase):
    def test_the_script_tells_the_minutes_of_the_readme(self):
        told = re.search(r"the first time this takes ([^,;\"]*)", text(ROOT / "tabletop"))[1]
        self.assertIn(f" takes {told}", " ".join(text(README).split()))


def commands(page, heading):
    """The indented commands of a section, in order."""
    return [line.strip() for line in section(page, heading).splitlines() if line.startswith("    ") and line.strip()]


def free_port():
    with socket.create_server(("127.0.0.1", 0)) as door:
        return str(door.getsockname()[1])


@unittest.skipUnless(os.access(PROGRAM, os.X_OK), "the program isn't built")
class Commands(unittest.TestCase):
    def setUp(self):
        folder = tempfile.TemporaryDirectory()
        self.addCleanup(folder.cleanup)
        # A clone with the program and no sources, so that the script has nothing to build and writes nothing here.
        self.clone = pathlib.Path(folder.name)
        out = self.clone / "crates" / "tabletop" / "out"
        out.mkdir(parents=True)
        (out / "tabletop").symlink_to(PROGRAM)
        (self.clone / "examples").symlink_to(ROOT / "examples")
        shutil.copy(ROOT / "tabletop", self.clone)

    def shell(self, command, given=b""):
        return subprocess.run(["bash", "-c", command], cwd=self.clone, input=given, capture_output=True, check=False, timeout=600)

    def test_what_is_seen_at_once(self):
        played, checked, kept, drilled = commands(README, "## See it at once")
        cave = self.shell(played)
        self.assertEqual(cave.returncode, 0)
        self.assertRegex(cave.stdout.decode(), r'^0\t\{"n":1,"ok":"hello"')
        said = self.shell(checked).stdout.decode().strip()
        self.assertIn(f"`{said}`", section(README, "## See it at once"))
        self.assertEqual(self.shell(kept).returncode, 0)
        self.assertTrue(self.shell("./tabletop check next.json").stdout.startswith(b"ok: "))
        self.assertTrue(self.shell(drilled).stdout.startswith(b"drill 7: lines 2000, "))

    def test_an_evening_is_hosted(self):
        part = section(README, "## Host an evening")
        house, *clients = commands(README, "## Host an evening")
        check, keep = re.findall(r"`((?:\./tabletop|tail) [^`]*)`", part)
        self.assertIn(f"`{self.shell(check).stdout.decode().strip()}`", part)
        port = free_port()
        self.assertTrue(house.endswith(" &"))
        with subprocess.Popen(["bash", "-c", "exec " + house[: -len(" &")].replace(" 7000 ", f" {port} ")], cwd=self.clone) as server:
            self.addCleanup(server.kill)
            self.assertEqual(len(clients), 3)
            for client in clients:
                self.sit_down(client.replace(" 7000 ", f" {port} "))
            self.assertEqual(server.wait(timeout=60), 0)
        self.assertEqual((self.clone / "evening.txt").read_text().splitlines()[:-1], ["1 Left", "2 Left", "3 Left"])
        self.assertEqual(self.shell(keep).returncode, 0)
        self.assertEqual(self.shell("./tabletop check next-week.json").stdout, self.shell(check).stdout)

    def sit_down(self, command):
        """Takes a seat and leaves it, once the program listens."""
        for _ in range(600):
            ran = self.shell(command, b"bye\n")
            if b"no session with" not in ran.stderr:
                break
            time.sleep(0.1)
        self.assertEqual((ran.returncode, ran.stderr), (0, b""), command)

    def test_the_evening_is_what_the_program_prints(self):
        evening = ROOT / "examples" / "evening"
        words = [PROGRAM, "play", str(evening / "evening.json")]
        ran = subprocess.run(words, input=(evening / "evening.script").read_bytes(), capture_output=True, check=False, timeout=60)
        self.assertEqual(ran.stdout, (evening / "evening.out").read_bytes())

    def test_connections_that_say_nothing_use_up_what_is_left(self):
        loop = re.search(r"`(for k in 1 2; [^`]*)`", text(ROOT / "docs" / "HOSTING.md"))[1]
        port = free_port()
        words = ["./tabletop", "serve", "examples/evening/evening.json", port, "2"]
        with subprocess.Popen(words, cwd=self.clone, stdin=subprocess.DEVNULL, stdout=subprocess.PIPE) as server:
            self.addCleanup(server.kill)
            # (one at a time, since the first may come before the program listens)
            one = loop.replace("for k in 1 2", "for k in 1").replace("/7000", f"/{port}")
            for _ in range(2):
                while self.shell(one).returncode:
                    time.sleep(0.1)
            self.assertEqual((server.stdout.read(), server.wait(timeout=60)), (b"1 Left\n2 Left\n", 0))


if __name__ == "__main__":
    unittest.main()
