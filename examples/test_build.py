"""The build of the libraries side by side, with a stand-in for `rt` that takes no time to speak of: what starts when, what a failure and a
break leave, and what is shown.

    python3 -m unittest examples/test_build.py
"""

import importlib.util
import os
import pathlib
import signal
import subprocess
import sys
import tempfile
import unittest

SCRIPT = pathlib.Path(__file__).resolve().parent.parent / ".ci" / "build_libraries.py"
spec = importlib.util.spec_from_file_location("build_libraries", SCRIPT)
build = importlib.util.module_from_spec(spec)
sys.modules["build_libraries"] = build
spec.loader.exec_module(build)

CRATES = """\
# the lowest ones first
low:
small: std_thing low
large may_wait=4 tests_may=Threads: low
alone: # needs nothing of ours
high: large small std_thing
tabletop: high alone
"""
NEEDS = {"low": (), "small": ("low",), "large": ("low",), "alone": (), "high": ("large", "small"), "tabletop": ("high", "alone")}

# Notes when it starts and ends, refuses to work before those below are there, and does as the file `does` of its crate says.
FAKE = """\
#!/bin/sh
name=${{PWD##*/}} does=$(cat src/does)
echo "starts $name $*" >> {notes}
for need in $(cat src/needs); do [ -f ../$need/out/rlib/stamp ] || {{ echo "lacks $need"; exit 1; }}; done
[ -d specs ] && [ "$(ls .. | wc -l)" = "$(cat ../../crates.txt | wc -l)" ] || exit 1
mkdir -p out/rlib
: > out/kept
case $does in
  killed) [ -f out/tried ] || {{ : > out/tried; kill -9 $$; }} ;;
  fails) echo "error: not proved"; exit 1 ;;
  sleeps) exec sleep 30 ;;
esac
: > out/rlib/stamp
echo "ends $name" >> {notes}
"""


class Scheduling(unittest.TestCase):
    def plan(self, **seconds):
        return build.Plan({name: build.Crate(name, needs, seconds.get(name, 1.0)) for name, needs in NEEDS.items()})

    def test_the_list_is_read(self):
        self.assertEqual(build.listed(CRATES), NEEDS)
        self.assertEqual(build.below("high", NEEDS), ["low", "large", "small"])

    def test_what_has_the_longest_chain_behind_it_starts_first(self):
        plan = self.plan(large=9.0)
        self.assertEqual([crate.name for crate in plan.ready()], ["low", "alone"])
        plan.done.add("low")
        self.assertEqual([crate.name for crate in plan.ready()], ["large", "small", "alone"])
        self.assertEqual([crate.name for crate in self.plan(alone=99.0).ready()], ["alone", "low"])

    def test_processors_are_shared(self):
        plan = self.plan()
        self.assertEqual((plan.jobs(4), plan.jobs(1)), (2, 1))
        plan.done |= {"low", "alone", "small", "large"}
        self.assertEqual(plan.jobs(4), 4)

    def test_how_long_it_takes(self):
        plan = self.plan(large=5.0, alone=2.0)
        self.assertEqual(plan.seconds_left({}, 1, 1.0), 11.0)
        self.assertEqual(plan.seconds_left({}, 4, 1.0), 8.0)
        self.assertEqual(plan.seconds_left({}, 4, 60.0), 480.0)
        plan.done.add("low")
        self.assertEqual(plan.seconds_left({"large": 3.0}, 4, 1.0), 4.0)

    def test_words_for_times(self):
        words = [build.minutes(seconds) for seconds in (3, 65, 95, 1500)]
        self.assertEqual(words, ["less than a minute", "a minute", "2 minutes", "25 minutes"])


class Building(unittest.TestCase):
    def setUp(self):
        folder = tempfile.TemporaryDirectory()
        self.addCleanup(folder.cleanup)
        self.root = pathlib.Path(folder.name) / "repository"
        self.notes, tools = pathlib.Path(folder.name) / "notes", pathlib.Path(folder.name) / "bin"
        (self.root / ".git").mkdir(parents=True)
        tools.mkdir()
        (self.root / "crates.txt").write_text(CRATES)
        for name in NEEDS:
            for part in ("src", "specs"):
                (self.root / "crates" / name / part).mkdir(parents=True)
            (self.root / "crates" / name / "src" / "needs").write_text(" ".join(build.below(name, NEEDS)))
            self.does(name, "")
        (tools / "rt").write_text(FAKE.format(notes=self.notes))
        (tools / "rt").chmod(0o755)
        self.environment = {**os.environ, "PATH": f"{tools}:{os.environ['PATH']}"}

    def does(self, name, words):
        (self.root / "crates" / name / "src" / "does").write_text(words)

    def start(self):
        words = [sys.executable, "-B", str(SCRIPT), str(self.root)]
        return subprocess.Popen(words, env=self.environment, stderr=subprocess.PIPE, text=True)

    def built(self):
        """The status, what was shown, and what the stand-in noted in this run."""
        self.notes.write_text("")
        process = self.start()
        shown = process.communicate(timeout=60)[1]
        return process.returncode, shown, [tuple(line.split(" ", 2)) for line in self.notes.read_text().splitlines()]

    def has(self, name, what="rlib/stamp"):
        return (self.root / "crates" / name / "out" / what).is_file()

    def tidy(self):
        return not (self.root / ".git" / "tabletop-build").exists()

    def test_each_starts_once_those_below_are_done(self):
        status, shown, notes = self.built()
        self.assertEqual((status, shown.splitlines()[-1]), (0, "all but the program itself, in less than a minute"))
        self.assertRegex(shown, r"(?m)^1 of 6 crates: (low|alone), \d+ seconds$")
        self.assertEqual(sorted(note[1] for note in notes if note[0] == "ends"), ["alone", "high", "large", "low", "small"])
        places = {note[:2]: place for place, note in enumerate(notes)}
        for name in ("small", "large", "high"):
            self.assertTrue(all(places["ends", need] < places["starts", name] for need in NEEDS[name]), notes)
        self.assertTrue(all(note[2].startswith("lib") for note in notes if note[0] == "starts"))
        self.assertTrue(self.tidy() and all(self.has(name) for name in NEEDS if name != "tabletop"))

    def test_a_failure_ends_it_with_the_log(self):
        self.does("large", "fails")
        status, shown, notes = self.built()
        self.assertEqual(status, 1)
        self.assertIn("error: not proved\nlarge wasn't built (status 1); its log stands above\n", shown)
        self.assertNotIn("high", {note[1] for note in notes})
        self.assertTrue(self.tidy() and self.has("low") and self.has("large", "kept") and not self.has("large"))

    def test_a_break_loses_nothing_that_is_done(self):
        self.does("large", "sleeps")
        process = self.start()
        while not process.stderr.readline().startswith("3 of 6"):
            pass
        process.send_signal(signal.SIGINT)
        shown = process.communicate(timeout=60)[1]
        self.assertEqual((process.returncode, shown.splitlines()[-1]),
                         (130, "3 of 6 crates are done and stay; the next start goes on with the others"))
        self.assertTrue(self.tidy() and self.has("low") and self.has("large", "kept") and not self.has("large"))
        self.does("large", "")
        self.assertEqual((self.built()[0], self.has("large") and self.has("high")), (0, True))

    def test_what_a_killed_build_left_comes_home(self):
        left = self.root / ".git" / "tabletop-build" / "large" / "crates" / "large" / "out"
        left.mkdir(parents=True)
        (left / "old").write_text("")
        self.assertEqual((self.built()[0], self.has("large", "old"), self.tidy()), (0, True, True))

    def test_one_that_was_killed_is_tried_again(self):
        self.does("large", "killed")
        status, shown, _ = self.built()
        if build.slots_here() == 1:
            self.assertEqual(status, 1)
        else:
            self.assertRegex(shown, r"large was killed, most likely for memory: it is tried again, with at most \d+ at once")
            self.assertEqual((status, self.has("high")), (0, True))


if __name__ == "__main__":
    unittest.main()
