"""The page's model of a seat (page/seat.js) against the terminal client's (examples/client.py): recorded and
random evenings, each seat's lines, and after each line what is shown and said in words. It needs node;
without it, it is skipped. EVENINGS=100 plays as many.

    python3 -m unittest test_model
"""

import json
import re
import subprocess
import sys
import unittest

from evenings import EXAMPLES, HERE, MANY, AtRandom, lines_to, needs_node, needs_program, played, script_of

sys.path.insert(0, str(EXAMPLES))

from client import Seat, printable  # noqa: E402

SEATS = range(3)


def shown(view):
    """A view as plain lists, for comparing."""
    maps = {
        name: {
            "mode": grid.mode,
            "shown": grid.shown,
            "w": grid.width,
            "h": grid.height,
            "seen": sorted(y * grid.width + x for x, y in grid.seen),
            "letters": "".join(
                grid.letters.get((x, y), " ") for y in range(grid.height) for x in range(grid.width)
            ),
        }
        for name, grid in view.maps.items()
    }
    tokens = {token.id: token.words() for token in view.tokens.values()}
    fight = view.fight and {
        "list": [list(entry) for entry in view.fight.entries],
        "round": view.fight.round,
        "turn": view.fight.turn,
    }
    types = {"lights": dict(view.lights), "sights": dict(view.sights)}
    return {"maps": maps, "tokens": tokens, **types, "fight": fight}


def words_of(note):
    """A note as both models have it: of a refusal the name alone, since each has its own sentence."""
    return re.sub(r"^(refused \(\w+\)):.*", r"\1", printable(note))


def told_by_client(number, lines, sent):
    """What client.py shows after each of a seat's lines, and what it says."""
    said, sent, told = [], list(sent), []
    seat = Seat(number, lambda line: None, said.append)
    for line in lines:
        if re.search(r'"(ok|refused)":"[a-zA-Z]+"', line):
            seat.waits = sent.pop(0)
        seat.take(line.encode())
        notes = [note for note in said if not note.startswith(("ok: ", "you sit at", '{"format":'))]
        told.append({"view": shown(seat.view), "said": [*map(words_of, notes)], "ended": seat.ended})
        said.clear()
    return told


# What evenings at random seldom meet: lights by halves of their radius, one that is hidden, a darkness beside
# a light, a wall through an eye.
YARD = {"map": "yard"}
SELDOM = [
    {"do": "lighttype", "name": "torch", "radius": 8},
    {"do": "mode", **YARD, "mode": "night"},
    {"do": "sight", "token": "1:mara", "sight": "hound"},
    {"do": "light", "token": "2:brok", "light": "torch"},
    {"do": "light", "token": "0:goblin", "light": "torch"},
    {"do": "lighttype", "name": "murk", "radius": -3},
    {"do": "light", "token": "0:well", "light": "murk"},
    {"do": "mode", **YARD, "mode": "day"},
    {"do": "wall", **YARD, "kind": "vbl", "a": [1, 18], "b": [1, 20]},
]

# Lines that no evening has.
MAP = '{"ground":[[0,0,"ab"]],"h":2,"mode":"day","name":"m","seen":[[0,0,0]],"w":2}'
HELLO = [
    '{"n":1,"ok":"hello","seat":1,"seats":2}',
    f'{{"full":{{"lights":{{}},"maps":[{MAP}],"sights":{{}},"tokens":[]}}}}',
]
SENT = [{"do": "hello"}, {"do": "say"}, {"do": "move", "token": "1:a", "path": [[0, 0], [0, 1]]}]
TOKEN = (
    '{"cell":[1,0],"id":"1:a","layer":"token","map":"m","name":"A\\u202e\\u0007",'
    '"props":[["x","\\u0000\U0001f409"]],"size":1}'
)
CHANGED = '{"dark":[[0,0,0]],"ground":[[1,1,"."]],"hidden":[[0,1,1]],"lit":[[1,1,1]],"mode":"off","name":"m"}'
ODD = {
    "refused": [*HELLO, '{"at":3,"kind":"NoProp","n":2,"no":23,"refused":"MacroFault"}'],
    "steps": [
        *HELLO,
        '{"n":2,"ok":"say"}',
        f'{{"change":{{"tokens":[{TOKEN}]}}}}',
        '{"moved":1,"n":3,"ok":"move"}',
    ],
    "messages": [
        *HELLO,
        '{"from":0,"text":"a\\u2028b\\u00a0c","to":1}',
        '{"from":1,"text":"x","to":"gmself"}',
    ],
    "types called as parts of objects": [*HELLO, '{"change":{"lights":{"__proto__":3,"constructor":4}}}'],
    "letter": [*HELLO, '{"change":{"changed":[{"ground":[[0,0,"~"]],"name":"m"}]}}'],
    "capital": [*HELLO, '{"change":{"changed":[{"ground":[[0,0,"A"]],"name":"m"}]}}'],
    "hidden": [*HELLO, '{"change":{"changed":[{"hidden":[[1,0,0]],"name":"m"}]}}'],
    "unknown map": [*HELLO, '{"change":{"changed":[{"mode":"day","name":"x"}]}}'],
    "gone": [*HELLO, '{"change":{"gone":["1:a"]}}'],
    "off the map": [*HELLO, '{"change":{"changed":[{"ground":[[0,1,"ab"]],"name":"m"}]}}'],
    "not JSON": [*HELLO, "{"],
    "no line": [*HELLO, '{"x":1}'],
    "a fight": [
        *HELLO,
        f'{{"change":{{"fight":{{"list":[["1:a",-3]],"round":0,"turn":null}},"tokens":[{TOKEN}]}}}}',
        '{"change":{"fight":{"list":[["1:a",-3]],"round":2,"turn":"1:a"}}}',
        '{"change":{"fight":null}}',
    ],
    "an entry of no token": [*HELLO, '{"change":{"fight":{"list":[["1:a",7]],"round":0,"turn":null}}}'],
    "an entry without a number": [
        *HELLO,
        f'{{"change":{{"fight":{{"list":[["1:a","7"]],"round":0,"turn":null}},"tokens":[{TOKEN}]}}}}',
    ],
    "a turn of no entry": [*HELLO, '{"change":{"fight":{"list":[],"round":1,"turn":"1:a"}}}'],
    "a token that goes and leaves its entry": [
        *HELLO,
        f'{{"change":{{"fight":{{"list":[["1:a",-3]],"round":0,"turn":null}},"tokens":[{TOKEN}]}}}}',
        '{"change":{"gone":["1:a"]}}',
    ],
    "refused hello": ['{"n":0,"no":24,"refused":"BadKey"}'],
    "the last line": [*HELLO, '{"n":16384,"ok":"say"}'],
    "a change": [*HELLO, f'{{"change":{{"changed":[{CHANGED}],"lights":{{"l":3}}}}}}'],
}


@needs_node
class Model(unittest.TestCase):
    maxDiff = 2000

    def by_page(self, jobs):
        """What page/seat.js answers to each job."""
        given = "".join(json.dumps(job) + "\n" for job in jobs)
        words = ["node", str(HERE / "model_player.mjs")]
        ran = subprocess.run(
            words, input=given, capture_output=True, text=True, encoding="utf-8", check=False
        )
        self.assertEqual((ran.returncode, ran.stderr[-2000:]), (0, ""))
        return [json.loads(line) for line in ran.stdout.splitlines()]

    def compare(self, evenings, least):
        """Compares both models after each line of each seat; `evenings` are printed lines and the script."""
        jobs = []
        for printed, lines in evenings:
            for number in SEATS:
                sent = [line for seat, line in lines if seat == number]
                jobs.append({"number": number, "lines": lines_to(number, printed), "sent": sent})
        for job, found in zip(jobs, self.by_page(jobs)):
            wanted = told_by_client(**job)
            self.assertGreater(len(wanted), least)
            self.assertEqual(len(wanted), len(found))
            for place, (line, one, other) in enumerate(zip(job["lines"], wanted, found)):
                with self.subTest(seat=job["number"], place=place, line=line[:60]):
                    self.assertEqual(one, other)

    def recorded(self, file):
        words = [line.partition(" ") for line in file.read_text("utf-8").splitlines()]
        return [(int(seat), json.loads(line)) for seat, _, line in words]

    def test_the_toll_house(self):
        folder = EXAMPLES / "evening"
        printed = (folder / "evening.out").read_text("utf-8").splitlines()
        self.compare([(printed, self.recorded(folder / "evening.script"))], 40)

    @needs_program
    def test_the_cave(self):
        lines = self.recorded(EXAMPLES / "cave.script")
        self.compare([(played(script_of(lines), EXAMPLES / "cave.json"), lines)], 5)

    @needs_program
    def test_evenings_at_random(self):
        kinds = {"dark", "fight", "gone", "hidden", "lit", "unmapped", "refused"}
        for number in range(MANY):
            with self.subTest(evening=number):
                lines = [*AtRandom(number, 300).lines()]
                printed = played(script_of(lines))
                kinds -= {kind for kind in kinds if f'"{kind}":' in "".join(printed)}
                self.compare([(printed, lines)], 60)
        self.assertEqual(kinds, set())  # each kind of line came

    @needs_program
    def test_what_the_game_master_is_told_that_players_see(self):
        mark = (0, {"do": "say", "text": "#", "to": "self"})
        compared = some = 0  # maps, and those of which some cells were seen and others not
        for number in range(MANY):
            lines = [*AtRandom(1000 + number, 200).lines()]
            hellos, then = lines[: len(SEATS)], lines[len(SEATS) :]
            then[1:1] = [(0, line) for line in SELDOM]  # behind the dump
            marked = hellos + [it for line in then for it in (line, mark)]
            sent = [[line for seat, line in marked if seat == number] for number in SEATS]
            [counts] = self.by_page([{"printed": played(script_of(marked)), "sent": sent}])
            compared, some = compared + counts[0], some + counts[1]
        self.assertGreater(compared, 100)
        self.assertGreater(some, 20)

    def test_odd_lines(self):
        for name, lines in ODD.items():
            with self.subTest(name):
                wanted = told_by_client(1, lines, SENT)
                [found] = self.by_page([{"number": 1, "lines": lines, "sent": SENT}])
                views = [[told["view"] for told in all_told[:-1]] for all_told in (wanted, found)]
                self.assertEqual(*views)
                for one, other in zip(wanted, found):
                    if one["ended"] and "can't be read" in one["ended"]:  # why, each says in its own words
                        self.assertIn("can't be read", other["ended"])
                    else:
                        self.assertEqual(one, other)

    def test_the_parts(self):
        words = ["node", "--test", str(HERE / "test_parts.mjs")]
        ran = subprocess.run(words, capture_output=True, text=True, check=False)
        self.assertEqual(ran.returncode, 0, ran.stdout)


if __name__ == "__main__":
    unittest.main()
