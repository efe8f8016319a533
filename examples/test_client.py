"""Tests of client.py: what is drawn for each kind of line, what a typed line becomes, and how a session ends.

    python3 -m unittest examples/test_client.py
"""

import json
import os
import pathlib
import re
import socket
import stat
import subprocess
import sys
import tempfile
import threading
import time
import unittest

try:
    import pty
except ImportError:  # a system without terminals of that kind
    pty = None

HERE = pathlib.Path(__file__).resolve().parent
sys.path.insert(0, str(HERE))

import client  # noqa: E402
from client import How  # noqa: E402
from tabletop_client.drawing import typed_window  # noqa: E402

ANN = {"cell": [0, 0], "id": "1:ann", "layer": "token", "light": None, "map": "cave", "name": "Ann", "own": [["mp", "5"]],
       "props": [["hp", "10"]], "sight": "human", "size": 1}
ORC = {"cell": [1, 1], "id": "0:orc", "layer": "token", "map": "cave", "name": "Orc", "props": [], "size": 2}
CAVE = {"ground": [[0, 0, "..g"], [1, 0, ".w"], [2, 0, "."]], "h": 3, "mode": "day", "name": "cave",
        "seen": [[0, 0, 1], [1, 0, 1]], "w": 4}
HALL = {"ground": [[0, 0, "ss"]], "h": 1, "mode": "off", "name": "hall", "seen": [[0, 0, 1]], "w": 2}
VIEW = {"lights": {"torch": 4}, "maps": [CAVE], "sights": {"human": [10, 0, 2]}, "tokens": [ANN]}
HELLO = {"n": 1, "ok": "hello", "seat": 1, "seats": 3}


class Table:
    """A seat whose lines and words are kept."""

    def __init__(self, number=1, *lines):
        self.sent, self.notes = [], []
        self.seat = client.Seat(number, self.sent.append, self.notes.append)
        self.seat.put({"do": "hello", "key": "k", "seat": number})
        self.take(HELLO, {"full": VIEW}, *lines)

    def take(self, *lines):
        for line in lines:
            self.seat.take(json.dumps(line).encode())
        return self

    def change(self, **parts):
        return self.take({"change": parts})

    def type(self, text):
        """What is sent for a typed line; nothing where it is answered here."""
        before = len(self.sent)
        self.seat.waits = None
        self.seat.typed.append(text if isinstance(text, bytes) else text.encode())
        self.seat.advance()
        return self.sent[before:]

    def rows(self, name="cave"):
        return client.map_text(self.seat.view, name)[2:]

    def spans(self, size=(24, 80), text="", pan=(0, 0)):
        return client.compose(self.seat, self.notes, text, size, pan)

    def screen(self, size=(24, 80), text="", pan=(0, 0)):
        """The screen as rows of text."""
        rows = [[" "] * (size[1] + 100) for _ in range(size[0])]
        for row, column, words, _ in self.spans(size, text, pan):
            rows[row][column : column + len(words)] = words
        return ["".join(row).rstrip() for row in rows]


class FullLine(unittest.TestCase):
    def test_draws_what_was_sent_and_nothing_else(self):
        self.assertEqual(Table().rows(), [" 0 A*. g'", " 1 . w", " 2 .'", "A* Ann 1:ann at 0,0; sight human; hp=10; own: mp=5"])

    def test_draws_another_token_over_its_whole_square(self):
        table = Table().take({"full": {**VIEW, "tokens": [ORC, ANN]}})
        self.assertEqual(table.rows()[:3], [" 0 A*. g'", " 1 . O+O+", " 2 .'O+O+"])
        self.assertEqual(table.rows()[3], "O+ Orc 0:orc at 1,1; size 2")

    def test_the_game_master_is_told_what_players_are_not(self):
        orc = {**ORC, "light": "torch", "own": [], "sight": None, "owners": [], "secret": [["trap", "pit"]], "visible": False,
               "layer": "hidden"}
        ann = {**ANN, "owners": [1], "secret": [], "visible": True}
        view = {**VIEW, "maps": [{**CAVE, "shown": False}], "tokens": [orc, ann]}
        table = Table(0, {"full": view})
        self.assertEqual(client.map_text(table.seat.view, "cave")[0], "== cave, 4 by 3, day, not shown")
        self.assertEqual(table.rows()[1], " 1 . O-O-")
        self.assertIn("O- Orc 0:orc at 1,1; size 2; layer hidden; not visible; light torch; secret: trap=pit", table.rows())
        self.assertIn("A* Ann 1:ann at 0,0; owner 1; sight human; hp=10; own: mp=5", table.rows())

    def test_a_token_stands_over_those_of_lower_layers(self):
        chest = {**ORC, "id": "0:chest", "name": "Chest", "layer": "object", "size": 1, "cell": [0, 0]}
        self.assertEqual(Table().take({"full": {**VIEW, "tokens": [chest, ANN]}}).rows()[0], " 0 A*. g'")

    def test_names_that_a_terminal_cannot_show_in_one_column(self):
        named = {**ORC, "size": 1, "name": "\x1b世o"}
        self.assertEqual(Table().take({"full": {**VIEW, "tokens": [named]}}).rows()[1:2], [" 1 . o+"])
        self.assertEqual(client.square_of(client.Token.read({**named, "name": "世界"}))[0], "?")


class ChangeLine(unittest.TestCase):
    def test_changed_lit_and_ground(self):
        table = Table().change(changed=[{"name": "cave", "ground": [[2, 1, ".."]], "lit": [[2, 0, 2]]}])
        self.assertEqual(table.rows()[:3], [" 0 A*. g'", " 1 . w", " 2 . . ."])

    def test_changed_ground_gives_new_letters(self):
        self.assertEqual(Table().change(changed=[{"name": "cave", "ground": [[1, 1, "r"]]}]).rows()[1], " 1 . r")

    def test_changed_dark(self):
        self.assertEqual(Table().change(changed=[{"name": "cave", "dark": [[1, 0, 1]]}]).rows()[1], " 1 .'w'")

    def test_changed_hidden(self):
        table = Table().change(changed=[{"name": "cave", "hidden": [[0, 2, 2], [2, 0, 0]]}])
        self.assertEqual(table.rows()[:3], [" 0 A*.", " 1 . w", " 2"])

    def test_changed_mode_and_shown(self):
        table = Table(0, {"full": {**VIEW, "maps": [{**CAVE, "shown": True}]}})
        table.change(changed=[{"name": "cave", "mode": "night", "shown": False}])
        self.assertEqual(client.map_text(table.seat.view, "cave")[0], "== cave, 4 by 3, night, not shown")

    def test_tokens_come_change_and_go(self):
        table = Table().change(tokens=[ORC])
        self.assertEqual(table.rows()[1], " 1 . O+O+")
        table.change(tokens=[{**ORC, "cell": [2, 1], "props": [["hp", "3"]]}])
        self.assertEqual(table.rows()[1:4], [" 1 . w O+O+", " 2 .'  O+O+", "O+ Orc 0:orc at 2,1; size 2; hp=3"])
        self.assertEqual(table.change(gone=["0:orc"]).rows()[1], " 1 . w")

    def test_a_token_that_the_seat_owns_no_more(self):
        table = Table().change(tokens=[{key: ANN[key] for key in ANN if key not in ("light", "own", "sight")}])
        self.assertEqual(table.rows()[0], " 0 A+. g'")
        self.assertIsNone(table.seat.chosen_token())

    def test_maps_come_and_go(self):
        table = Table().change(maps=[HALL], tokens=[{**ANN, "map": "hall"}])
        self.assertEqual(table.rows("hall")[0], " 0 A*s")
        self.assertEqual(table.screen()[0], "hall, 2 by 1, off   Ann 1:ann at 0,0; sight human; hp=10; own: mp=5")
        self.assertEqual(list(table.change(unmapped=["cave"]).seat.view.maps), ["hall"])

    def test_lights_and_sights(self):
        table = Table().change(lights={"candle": 2, "torch": 5}, sights={"owl": [9, 9, 1]})
        table.type("types")
        self.assertEqual(table.notes[-1], '{"lights":{"candle":2,"torch":5},"sights":{"human":[10,0,2],"owl":[9,9,1]}}')

    def test_a_fight_comes_changes_and_ends(self):
        entries = [["0:orc", 15], ["1:ann", 7]]
        table = Table().change(tokens=[ORC], fight={"list": entries, "round": 0, "turn": None})
        self.assertEqual(client.fight_text(table.seat.view), ["fight, round 0", "    15 Orc 0:orc", "     7 Ann 1:ann"])
        table.change(fight={"list": entries, "round": 1, "turn": "1:ann"})
        self.assertEqual(client.fight_text(table.seat.view), ["fight, round 1", "    15 Orc 0:orc", ">    7 Ann 1:ann"])
        self.assertEqual([row[13:] for row in table.screen()[1:5]], [*client.fight_text(table.seat.view), "O+ Orc 0:orc at 1,1; size 2"])
        table.type("fight")
        self.assertEqual(table.notes[-1], "fight, round 1\n    15 Orc 0:orc\n>    7 Ann 1:ann")
        table.change(gone=["0:orc"], fight={"list": entries[1:], "round": 1, "turn": "1:ann"})
        self.assertEqual(client.fight_text(table.seat.view), ["fight, round 1", ">    7 Ann 1:ann"])
        table.change(fight=None).type("fight")
        self.assertEqual((table.notes[-1], table.seat.ended), ("you are shown no fight", None))

    def test_a_full_line_tells_whether_there_is_a_fight(self):
        table = Table(1, {"full": {**VIEW, "fight": {"list": [["1:ann", 7]], "round": 3, "turn": None}}})
        self.assertEqual(client.fight_text(table.seat.view), ["fight, round 3", "     7 Ann 1:ann"])
        self.assertEqual(client.fight_text(table.take({"full": VIEW}).seat.view), [])

    def test_changes_lead_to_what_a_look_gives(self):
        views = {}
        for raw in (HERE / "evening" / "evening.out").read_bytes().splitlines():
            number, _, line = raw.partition(b"\t")
            seat = views.setdefault(number, client.Seat(int(number), lambda line: None, lambda words: None))
            if line.startswith(b'{"full"') and seat.view.maps:
                seat.looked = client.View.read(json.loads(line)["full"]) == seat.view
            seat.take(line)
            self.assertIn(seat.ended, (None, "you left the table"))
        self.assertEqual([(number, seat.looked, seat.ended) for number, seat in sorted(views.items())],
                         [(number, True, "you left the table") for number in (b"0", b"1", b"2")])


class MessageLine(unittest.TestCase):
    def test_who_says_it_and_to_whom(self):
        for sender, to, words in ((0, "all", "GM: hi"), (2, "all", "seat 2: hi"), (1, "gm", "seat 1 to the GM: hi"),
                                  (1, "self", "seat 1 to self: hi"),
                                  (1, "gmself", "seat 1 to the GM and self: hi"), (2, 1, "seat 2 to seat 1: hi")):
            self.assertEqual(Table(1, {"from": sender, "text": "hi", "to": to}).notes[-1], words)

    def test_no_text_steers_the_terminal(self):
        table = Table(1, {"from": 2, "text": "a\x1b[2J\u202eb\nc", "to": "all"})
        self.assertIn("seat 2: a\\x1b[2J\\u202eb", table.screen())

    def test_it_stands_beneath_the_map_in_lines_of_the_window(self):
        rows = Table(1, {"from": 2, "text": "12345678901234567890", "to": "all"}).screen((16, 20))
        self.assertTrue(all(len(row) < 20 for row in rows[1:]))
        self.assertEqual(rows[-5:-1], ["  and seat 0 is the", "  game master's", "seat 2:", "  12345678901234567", "  890"][-4:])


class ReplyLine(unittest.TestCase):
    def test_hello(self):
        self.assertEqual(Table().notes, ["you sit at seat 1; the table has 3, and seat 0 is the game master's"])

    def test_a_move_that_a_wall_stopped(self):
        table = Table()
        table.type("move 66")
        self.assertEqual(table.take({"moved": 1, "n": 2, "ok": "move"}).notes[-1], "stopped after 1 of 2 steps")

    def test_steps_in_a_row_go_on_from_where_the_reply_says_that_the_token_stands(self):
        table = Table()
        for _ in range(2):
            table.seat.typed.append(b"move 6")
        table.seat.advance()
        table.take({"moved": 1, "n": 2, "ok": "move"})
        table.seat.advance()
        self.assertEqual([json.loads(line)["path"] for line in table.sent[1:]], [[[1, 0]], [[2, 0]]])

    def test_other_commands(self):
        self.assertEqual(Table(0, {"n": 2, "ok": "wall"}).notes[-1], "ok: wall")
        self.assertEqual(len(Table(1, {"n": 2, "ok": "say"}, {"n": 3, "ok": "roll"}, {"n": 4, "ok": "look"}).notes), 1)

    def test_dump(self):
        self.assertEqual(Table(0, {"dump": {"seats": [], "maps": []}, "n": 2, "ok": "dump"}).notes[-1], '{"maps":[],"seats":[]}')


# Two cells by two, with a wall of both kinds, one for the eyes alone across a corner, and one for the feet.
YARD = {"format": 1,
        "maps": [{"h": 2, "mbl": [[0, 0, 4, 0], [2, 2, 2, 4]], "mode": "day", "name": "yard", "rows": ["..", "gw"], "shown": True,
                  "vbl": [[0, 0, 4, 0], [0, 2, 2, 4]], "w": 2}],
        "tokens": [{"cell": [1, 0], "map": "yard", "name": "Orc", "size": 1}]}


class Dumped(unittest.TestCase):
    def setUp(self):
        folder = tempfile.TemporaryDirectory()
        self.addCleanup(folder.cleanup)
        self.file = pathlib.Path(folder.name) / "kept.json"
        self.table = Table(0, {"full": {**VIEW, "maps": [{**CAVE, "name": "yard"}], "tokens": []}})

    def answer(self):
        return self.table.take({"dump": {"maps": [], "a": "\u4e16"}, "n": 2, "ok": "dump"}).notes[-1]

    def test_a_saved_campaign_is_its_owners_alone(self):
        self.assertEqual(self.table.type(f"save {self.file}"), [b'{"do":"dump"}'])
        self.assertEqual(self.answer(), f"the campaign is in {self.file}")
        self.assertEqual(self.file.read_text(encoding="utf-8"), '{"a":"\u4e16","maps":[]}')
        if os.name == "posix":
            self.assertEqual(stat.S_IMODE(self.file.stat().st_mode), 0o600)
        self.assertEqual(list(self.file.parent.iterdir()), [self.file])

    def test_a_file_that_is_there_is_written_over_where_that_is_asked_for(self):
        for answer, sent in (("no", []), ("say hi", [b'{"do":"say","text":"hi"}']), ("yes", [b'{"do":"dump"}'])):
            self.file.write_text("old", encoding="utf-8")
            self.assertEqual(self.table.type(f"save {self.file}"), [])
            self.assertEqual(self.table.notes[-1], f"{self.file} is there already: yes writes over it, no leaves it")
            self.assertEqual((self.table.type(answer), self.file.read_text(encoding="utf-8")), (sent, "old"))
        self.assertEqual(self.answer(), f"the campaign is in {self.file}")
        self.assertEqual(self.file.read_text(encoding="utf-8"), '{"a":"\u4e16","maps":[]}')
        self.assertEqual(self.table.type("yes"), [])

    def test_what_cannot_be_written_is_told(self):
        self.table.type(f"save {self.file / 'within'}")
        self.assertRegex(self.answer(), "^not saved: ")

    def test_walls(self):
        picture = ["walls of yard, in half cells", "    0", "  0 #####", "  1  . O", "  2 ~ =", "  3  ~=w", "  4   #",
                   "# block sight and movement (vbl and mbl): 0,0 4,0", "~ block sight alone (vbl): 0,2 2,4",
                   "= block movement alone (mbl): 2,2 2,4"]
        for text, wanted in (("walls", picture), ("walls yard", picture), ("walls hall", ["there is no map hall"]),
                             ("walls yard 1,0,9,1", ["walls of yard, in half cells", "    2", "  0 ###", "  1  O", "  2 =",
                                                     picture[-3], picture[-1]])):
            self.assertEqual(self.table.type(text), [b'{"do":"dump"}'])
            self.assertEqual(self.table.take({"dump": YARD, "n": 2, "ok": "dump"}).notes[-1].split("\n"), wanted, text)
        for text in ("walls yard hall", "walls 1,2", "walls yard a,b,c,d"):
            self.assertEqual((self.table.type(text), self.table.notes[-1]), ([], "usage: walls [map] [x,y,w,h]"))


class RefusalLine(unittest.TestCase):
    def test_in_words(self):
        for more, words in (({"refused": "OffMap", "no": 8}, "refused (OffMap): off map"),
                            ({"refused": "NotYours", "no": 5}, "refused (NotYours): you have no such token to act on"),
                            ({"refused": "BadField", "no": 4, "field": "path"},
                             "refused (BadField): a field is missing, of another kind, out of its range or unknown, field path"),
                            ({"refused": "BadDice", "no": 18, "at": 3}, "refused (BadDice): bad dice, at byte 3"),
                            ({"refused": "MacroFault", "no": 23, "kind": "DivZero", "at": 7},
                             "refused (MacroFault): macro fault, div zero, at byte 7"),
                            ({"refused": "NoSuchMap", "no": 32}, "refused (NoSuchMap): no such map")):
            table = Table(1, {"n": 2, **more})
            self.assertEqual((table.notes[-1], table.seat.ended), (words, None))


class Typing(unittest.TestCase):
    FORMS = (
        ("say hello there", {"do": "say", "text": "hello there"}),
        ("say @gm psst", {"do": "say", "text": "psst", "to": "gm"}),
        ("say @bob hi", {"do": "say", "text": "@bob hi"}),
        ("@2  two spaces", {"do": "say", "text": " two spaces", "to": 2}),
        ("roll 2d6", {"do": "roll", "dice": "2d6"}),
        ("/roll @self 1d20+3", {"do": "roll", "dice": "1d20+3", "to": "self"}),
        ("macro @gm attack orc 2", {"do": "macro", "name": "attack", "args": ["orc", "2"], "to": "gm"}),
        ('!attack "the orc\'s dog" ""', {"do": "macro", "name": "attack", "args": ["the orc's dog", ""]}),
        ("setmacro hit [r: 1d20] to hit", {"do": "setmacro", "name": "hit", "text": "[r: 1d20] to hit"}),
        ("setmacro none", {"do": "setmacro", "name": "none", "text": ""}),
        ("dropmacro hit", {"do": "setmacro", "name": "hit", "text": None}),
        ("/move 63", {"do": "move", "token": "1:ann", "path": [[1, 0], [2, 1]]}),
        ("move . 1,1 9", {"do": "move", "token": "1:ann", "path": [[1, 1], [2, 0]]}),
        ("move 2:bo 4,4", {"do": "move", "token": "2:bo", "path": [[4, 4]]}),
        ("light . torch", {"do": "light", "token": "1:ann", "light": "torch"}),
        ("light 1:ann -", {"do": "light", "token": "1:ann", "light": None}),
        ("setprop . own note a b", {"do": "setprop", "token": "1:ann", "class": "own", "name": "note", "value": "a b"}),
        ("make dog cave 2,1 Old dog", {"do": "make", "tag": "dog", "map": "cave", "cell": [2, 1], "name": "Old dog"}),
        ("remove 1:dog", {"do": "remove", "token": "1:dog"}),
        ("init . 17", {"do": "init", "token": "1:ann", "value": 17}),
        ("init 0:orc -2", {"do": "init", "token": "0:orc", "value": -2}),
        ("uninit .", {"do": "uninit", "token": "1:ann"}),
        ("turn", {"do": "turn"}),
        ("endfight", {"do": "endfight"}),
        ("look", {"do": "look"}),
        ("map hall 4 2", {"do": "map", "name": "hall", "w": 4, "h": 2}),
        ("mode hall night", {"do": "mode", "map": "hall", "mode": "night"}),
        ("show hall on", {"do": "show", "map": "hall", "on": True}),
        ("trail hall off", {"do": "trail", "map": "hall", "on": False}),
        ("terrain hall 1,0,2,2 w", {"do": "terrain", "map": "hall", "rect": [1, 0, 2, 2], "kind": "w"}),
        ("wall hall vbl 6,0 6,4", {"do": "wall", "map": "hall", "kind": "vbl", "a": [6, 0], "b": [6, 4]}),
        ("unwall hall mbl 6,0 6,4", {"do": "unwall", "map": "hall", "kind": "mbl", "a": [6, 0], "b": [6, 4]}),
        ("lighttype torch 4", {"do": "lighttype", "name": "torch", "radius": 4}),
        ("lighttype murk -3", {"do": "lighttype", "name": "murk", "radius": -3}),
        ("sighttype owl 20 8 2", {"do": "sighttype", "name": "owl", "range": 20, "night": 8, "mult": 2}),
        ("token orc hall 0,0 Big orc", {"do": "token", "tag": "orc", "map": "hall", "cell": [0, 0], "name": "Big orc"}),
        ("token orc hall 0,0 size=2 layer=hidden Orc",
         {"do": "token", "tag": "orc", "map": "hall", "cell": [0, 0], "size": 2, "layer": "hidden", "name": "Orc"}),
        ("own 0:orc 2 on", {"do": "own", "token": "0:orc", "seat": 2, "on": True}),
        ("layer 0:orc token", {"do": "layer", "token": "0:orc", "layer": "token"}),
        ("visible 0:orc off", {"do": "visible", "token": "0:orc", "on": False}),
        ("sight 0:orc -", {"do": "sight", "token": "0:orc", "sight": None}),
        ("place 0:orc hall 3,1", {"do": "place", "token": "0:orc", "map": "hall", "cell": [3, 1]}),
        ("secret 0:orc hp 12", {"do": "secret", "token": "0:orc", "name": "hp", "value": "12"}),
        ("expose 1 hall 0,0,2,2", {"do": "expose", "seat": 1, "map": "hall", "rect": [0, 0, 2, 2]}),
        ("hide 1 hall 0,0,2,2", {"do": "hide", "seat": 1, "map": "hall", "rect": [0, 0, 2, 2]}),
        ("dump", {"do": "dump"}),
        ("bye", {"do": "bye"}),
    )

    def test_short_forms(self):
        for text, command in self.FORMS:
            with self.subTest(text):
                self.assertEqual([json.loads(line) for line in Table().type(text)], [command])

    def test_a_json_line_goes_as_it_is(self):
        for raw in (b'{"do": "say",  "text":"x"}', b'{"do":"say","do":"look"}', b'{"no json', b'{"do":"say","text":"\xff"}'):
            self.assertEqual(Table().type(raw), [raw])

    def test_what_stands_for_no_line_is_answered_here(self):
        for text in ("fly", "wall hall vbl 6,0", "wall hall vbl 6,0 6,4 7,4", "show hall maybe", "move 5", "move 2:bo 6", "choose 2:bo",
                     b"say \xff"):
            table = Table()
            self.assertEqual((table.type(text), len(table.notes), table.seat.ended), ([], 2, None), text)

    def test_a_line_that_would_end_the_session_is_not_sent(self):
        self.assertEqual(len(Table().type("say " + "x" * 4074)[0]), 4096)
        self.assertEqual(Table().type("say " + "x" * 4075), [])

    def test_one_line_waits_for_the_answer_to_the_one_before(self):
        table = Table()
        table.seat.typed.extend([b"say a", b"say b"])
        table.seat.advance()
        self.assertEqual(len(table.sent), 2)
        table.take({"n": 2, "ok": "say"})
        table.seat.advance()
        self.assertEqual(len(table.sent), 3)


class TypedLine(unittest.TestCase):
    def edited(self, *calls, text="say hi all"):
        editor = client.Editor()
        editor.insert(text)
        for call in calls:
            getattr(editor, call)() if hasattr(editor, call) else editor.insert(call)
        return editor.text[: editor.cursor] + "|" + editor.text[editor.cursor :]

    def test_edits(self):
        for calls, wanted in (((), "say hi all|"), (("left", "left", "x"), "say hi ax|ll"), (("to_begin", "left", "/"), "/|say hi all"),
                              (("to_begin", "right", "delete"), "s|y hi all"), (("delete",), "say hi all|"),
                              (("left", "rub_out"), "say hi a|l"), (("right", "rub_out"), "say hi al|"),
                              (("to_begin", "rub_out"), "|say hi all"), (("left", "left", "cut_before"), "|ll"),
                              (("left", "left", "cut_behind"), "say hi a|"), (("cut_word",), "say hi |"),
                              (("cut_word", "cut_word"), "say |"), (("left", "cut_word"), "say hi |l"),
                              (("to_begin", "to_end"), "say hi all|")):
            self.assertEqual(self.edited(*calls), wanted, calls)

    def test_lines_that_were_typed_before(self):
        editor = client.Editor()
        for line in ("one", "two", "two", ""):
            editor.insert(line)
            self.assertEqual(editor.enter(), line)
        editor.insert("new")
        shown = []
        for call in (editor.previous, editor.previous, editor.previous, editor.next, editor.next, editor.next):
            call()
            shown.append(editor.text)
        self.assertEqual(shown, ["two", "one", "one", "two", "new", "new"])
        editor.previous()
        editor.insert("!")
        self.assertEqual((editor.enter(), editor.text, editor.before), ("two!", "", ["one", "two", "two!"]))


class Screen(unittest.TestCase):
    def test_notes_that_went_by_are_shown_again(self):
        table = Table()
        table.notes[:] = [f"note {number}" for number in range(30)]

        def pane(back):
            spans = client.compose(table.seat, table.notes, "", (24, 80), (0, 0), back)
            return {row: text for row, _, text, _ in spans if row >= 16}

        self.assertEqual([pane(0)[row] for row in (16, 17, 22)], ["-" * 79, "note 24", "note 29"])
        self.assertEqual([pane(10)[row] for row in (17, 22)], ["note 14", "note 19"])
        self.assertRegex(pane(10)[16], "^-- 10 lines further down .Ctrl-F. -+$")
        self.assertEqual([pane(99)[row] for row in (17, 22)], ["note 0", "note 5"])

    def test_the_cursor_of_a_long_line_is_seen(self):
        long = "".join(str(number % 10) for number in range(200))
        for cursor, column in ((0, 2), (5, 7), (200, 2 + 36)):
            shown, at = typed_window(long, cursor, 40)
            self.assertEqual((at, shown[at : at + 1]), (column, long[cursor : cursor + 1]))
        self.assertEqual(typed_window("\u4e16\u754c!", 2, 40), ("> \u4e16\u754c!", 6))

    def test_seen_and_remembered_differ_in_brightness_and_own_tokens_are_marked(self):
        spans = {(row, column): (text, how) for row, column, text, how in Table().change(tokens=[ORC]).spans()}
        self.assertEqual([spans[2, 3], spans[2, 5], spans[2, 7], spans[3, 5], spans[4, 3]],
                         [("A*", How.CHOSEN), (". ", How.SEEN), ("g'", How.REMEMBERED), ("O+", How.TOKEN), (".'", How.REMEMBERED)])

    def test_the_line_that_is_typed_stands_last(self):
        self.assertEqual(Table().screen(text="say hi")[-1], "> say hi")

    def test_a_map_larger_than_the_window_is_shown_around_the_chosen_token(self):
        wide = {**CAVE, "w": 96, "h": 96, "ground": [[y, 0, "." * 96] for y in range(96)], "seen": []}
        table = Table(1, {"full": {**VIEW, "maps": [wide], "tokens": [{**ANN, "cell": [80, 90]}]}})
        rows = table.screen((24, 60))
        self.assertTrue(any("A*" in row and row.startswith("90 ") for row in rows), rows)
        self.assertTrue(rows[1].strip().startswith("65"), rows[1])

    def test_small_windows(self):
        for size in ((1, 1), (2, 5), (5, 3), (8, 200)):
            self.assertTrue(Table().spans(size))

    def test_tokens_and_maps_are_chosen_in_turn(self):
        table = Table().change(maps=[HALL], tokens=[{**ANN, "id": "1:dog", "name": "Dog", "cell": [1, 0]}])
        tokens = ["1:ann", "1:dog"]
        self.assertEqual(table.seat.chosen_token(), "1:ann")
        table.seat.choose_next(tokens, table.seat.chosen_token())
        self.assertEqual(table.seat.chosen_token(), "1:dog")
        table.seat.choose_next(["cave", "hall"], table.seat.current_map())
        self.assertEqual(table.seat.current_map(), "hall")

    def test_the_game_master_has_no_token_until_one_is_chosen(self):
        table = Table(0, {"full": {**VIEW, "tokens": [{**ANN, "owners": [1], "secret": [], "visible": True}]}})
        self.assertIsNone(table.seat.chosen_token())
        table.type("choose 1:ann")
        self.assertEqual(table.seat.chosen_token(), "1:ann")


ENVIRONMENT = {**os.environ, "PYTHONIOENCODING": "utf-8", "PYTHONDONTWRITEBYTECODE": "1"}
JOINED = json.dumps(HELLO).encode() + b"\n" + json.dumps({"full": VIEW}).encode() + b"\n"
LEFT = b'{"n":3,"ok":"bye"}\n'


class Server:
    """Takes a connection for each list of answers, reads one line for each, and closes it then, or waits for its end."""

    def __init__(self, test, sessions, close=True):
        self.door = socket.create_server(("127.0.0.1", 0))
        test.addCleanup(self.door.close)
        self.sessions, self.close, self.read = sessions, close, []
        self.thread = threading.Thread(target=self.serve, daemon=True)
        self.thread.start()

    def serve(self):
        for answers in self.sessions:
            end, _ = self.door.accept()
            with end, end.makefile("rb") as lines:
                for answer in answers:
                    self.read.append(lines.readline())
                    end.sendall(answer)
                if not self.close:
                    end.recv(1)

    def words(self, *more):
        return [sys.executable, str(HERE / "client.py"), "127.0.0.1", str(self.door.getsockname()[1]), "1", *more]

    def end(self):
        self.thread.join(60)
        return [json.loads(line) for line in self.read]


class Breaks(unittest.TestCase):
    def broken(self):
        table = Table()
        table.seat.lose("the connection broke: timed out")
        return table

    def test_it_is_said_and_nothing_is_sent_until_somebody_sits_down_again(self):
        table, hint = self.broken(), "again sits down once more with the same key, bye leaves"
        self.assertEqual((table.notes[-1], table.seat.ended), (f"the connection broke: timed out; {hint}", None))
        for text in ("say hi", '{"do":"look"}', "move 6"):
            self.assertEqual((table.type(text), table.notes[-1]), ([], f"there is no connection: {hint}"))
        table.type("tokens")
        self.assertTrue(table.notes[-1].startswith("cave: Ann"))
        table.type("bye")
        self.assertEqual((table.seat.ended, table.seat.status), ("the connection broke: timed out", 1))

    def test_again(self):
        table, sent = self.broken(), []
        table.type("again")
        self.assertTrue(table.seat.wants_again)
        table.seat.sit_down(sent.append, "k")
        table.take({**HELLO, "n": 7}, {"full": VIEW})
        self.assertEqual(([json.loads(line) for line in sent], table.seat.wants_again), ([{"do": "hello", "key": "k", "seat": 1}], False))
        table.type("say hi")
        self.assertEqual((len(sent), table.rows()[0]), (2, " 0 A*. g'"))
        table.type("again")
        self.assertEqual((table.notes[-1], table.seat.wants_again), ("you sit at the table", False))

    def test_again_waits_for_no_answer(self):
        table = Table()
        table.seat.typed.extend([b"say a", b"say b", b" again "])
        table.seat.advance()
        self.assertEqual((len(table.sent), table.seat.wants_again), (2, False))
        table.seat.advance()
        self.assertEqual((len(table.sent), table.seat.wants_again, len(table.seat.typed)), (2, True, 0))

    def test_a_hello_that_is_refused_then_is_no_end(self):
        table = self.broken()
        table.seat.sit_down(table.sent.append, "k")
        table.take({"n": 0, "no": 25, "refused": "SeatTaken"})
        table.seat.lose("the server closed the connection")
        self.assertRegex(table.notes[-1], "^the server refused the hello: refused .SeatTaken.: somebody sits there; again sits down")
        self.assertIsNone(table.seat.ended)

    def test_the_program_sits_down_again_and_its_log_has_each_line_as_it_came(self):
        said = b'{"from":0, "text":"psst\xe2\x80\xae", "to":1}\n'
        server = Server(self, [[JOINED], [JOINED + said, LEFT]])
        with tempfile.TemporaryDirectory() as folder:
            log = pathlib.Path(folder) / "lines"
            log.write_bytes(b"before\n")
            words = server.words("k", "--text", "--log", str(log))
            with subprocess.Popen(words, stdin=subprocess.PIPE, stdout=subprocess.PIPE, env=ENVIRONMENT) as run:
                broke = b"the server closed the connection; again sits down once more with the same key, bye leaves\n"
                shown = list(iter(run.stdout.readline, broke))
                rest, _ = run.communicate(b"again\n", timeout=60)
            self.assertEqual(log.read_bytes(), b"before\n" + 2 * JOINED + said + LEFT)
        hello = {"do": "hello", "key": "k", "seat": 1}
        self.assertEqual((run.returncode, server.end()), (0, [hello, hello, {"do": "bye"}]))
        self.assertEqual(shown[0].decode().rstrip(), Table().notes[0])
        self.assertIn("GM to seat 1: psst\\u202e\nyou left the table\n", rest.decode())

    def test_a_log_is_its_owners_alone(self):
        with tempfile.TemporaryDirectory() as folder:
            server = Server(self, [[JOINED, LEFT]], close=False)
            log = pathlib.Path(folder) / "lines"
            subprocess.run(server.words("k", "--log", str(log)), stdin=subprocess.DEVNULL, capture_output=True, timeout=60, env=ENVIRONMENT)
            self.assertEqual(log.read_bytes(), JOINED + LEFT)
            if os.name == "posix":
                self.assertEqual(stat.S_IMODE(log.stat().st_mode), 0o600)


@unittest.skipUnless(pty, "no terminals of that kind here")
class Terminal(unittest.TestCase):
    def played(self, keys, answers, environment=()):
        """What the program shows on a terminal on which keys are typed, each piece once the server has read what the one before it made."""
        server, shown, (ours, theirs) = Server(self, [answers], close=False), [], pty.openpty()
        environment = {**ENVIRONMENT, "TERM": "xterm", **dict(environment)}
        run = subprocess.Popen(server.words("k"), stdin=theirs, stdout=theirs, stderr=theirs, env=environment)
        self.addCleanup(run.kill)
        os.close(theirs)
        reader = threading.Thread(target=self.read, args=(ours, shown), daemon=True)
        reader.start()
        self.until(lambda: b"1:ann" in b"".join(shown))
        for count, piece in enumerate(keys, 1):
            self.until(lambda: len(server.read) >= count)
            os.write(ours, piece)
        status = run.wait(60)
        reader.join(60)
        os.close(ours)
        return status, server.end(), b"".join(shown).decode("utf-8", "replace")

    def until(self, holds):
        """Waits until something holds, at most a minute."""
        for _ in range(3000):
            if holds():
                return
            time.sleep(0.02)
        self.fail("nothing came")

    @staticmethod
    def read(end, shown):
        try:
            while piece := os.read(end, 65536):
                shown.append(piece)
        except OSError:  # the other side is closed
            pass

    def test_keys(self):
        # Ctrl-A, right and Ctrl-E in a typed line; an arrow and the pad move where nothing is typed; Ctrl-P brings back what was typed.
        keys = [b"ay i\x01s\x1bOC\x1bOC\x1bOC\x05h\x17hi\r", b"\x1bOC", b"\x1bOr", b"\x10\x1bOD!\x1bOr\r", b"bye\r"]
        moved = b'{"moved":1,"n":3,"ok":"move"}\n'
        answers = [JOINED, b'{"n":2,"ok":"say"}\n', moved, moved, b'{"n":5,"ok":"say"}\n', b'{"n":6,"ok":"bye"}\n']
        status, sent, shown = self.played(keys, answers)
        moves = [{"do": "move", "path": [cell], "token": "1:ann"} for cell in ([1, 0], [1, 1])]
        self.assertEqual((status, sent[1:]), (0, [{"do": "say", "text": "hi"}, *moves, {"do": "say", "text": "h!2i"}, {"do": "bye"}]))
        self.assertRegex(shown, "you left the table")

    def test_a_long_note_is_shown_from_its_first_line(self):
        status, _, shown = self.played([b"help\rbye\r"], [JOINED, LEFT])
        self.assertEqual(status, 0)
        self.assertIn("While nothing is typed", shown)
        self.assertIn("lines further down (Ctrl-F)", shown)

    def test_without_the_library_for_screens_it_says_so_and_goes_on_as_text(self):
        with tempfile.TemporaryDirectory() as folder:
            (pathlib.Path(folder) / "curses.py").write_text("raise ImportError\n", encoding="utf-8")
            status, sent, shown = self.played([b"bye\n"], [JOINED, LEFT], {"PYTHONPATH": folder})
        self.assertEqual((status, sent[1:]), (0, [{"do": "bye"}]))
        self.assertRegex(re.sub(r"\s+", " ", shown), r"^this system has no curses, .* it goes on as --text you sit at seat 1.* 0 A\*\. g'")


class Ends(unittest.TestCase):
    def test_a_refused_hello(self):
        seat = client.Seat(1, lambda line: None, print)
        seat.take(b'{"n":0,"no":24,"refused":"BadKey"}')
        self.assertEqual((seat.ended, seat.status), ("the server refused the hello: refused (BadKey): that key doesn't open that seat", 1))

    def test_lines_that_cannot_be_read(self):
        for raw in (b"", b"no json", b"\xff", b"[]", b"7", b"{}", b'{"full":{}}', b'{"n":1,"ok":7}', b'{"from":0,"text":7,"to":"all"}',
                    b'{"change":{"gone":["2:bo"]}}', b'{"change":{"unmapped":["hall"]}}', b'{"change":{"changed":[{"name":"hall"}]}}',
                    *(b'{"change":{"changed":[{"name":"cave","ground":[%s]}]}}' % ground
                      for ground in (b'[9,9,"."]', b'[0,0,"/"]', b'[0,0,"7"]', b'[0,0,"A"]', b'[0,0,"{"]')),
                    b'{"change":{"changed":[{"name":"cave","hidden":[[9,9,9]]}]}}',
                    *(json.dumps({"change": {"tokens": [{**ORC, **parts}]}}).encode()
                      for parts in ({"cell": [9, 9]}, {"id": "orc"}, {"layer": "sky"}, {"props": [["hp", 7]]})),
                    *(b'{"change":{"fight":{%s}}}' % fight
                      for fight in (b'"list":[["0:orc",1]],"round":0,"turn":null', b'"list":[["1:ann",1]],"round":1,"turn":"0:orc"',
                                    b'"list":[["1:ann","1"]],"round":0,"turn":null', b'"list":[],"turn":null')), b'{"full":' * 2000):
            table = Table()
            table.seat.take(raw)
            self.assertRegex(table.seat.ended or "", r"^the server sent a line that can't be read \(.+\): ", raw)
            self.assertEqual(table.seat.status, 1)

    def test_the_seats_last_line(self):
        self.assertEqual(Table(1, {"n": 16384, "ok": "say"}).seat.ended, "that was the last line that the seat has in this run")

    def run_client(self, answers, typed=b"", close=True):
        """Runs the program with a server that reads one line for each answer."""
        server = Server(self, [answers], close)
        run = subprocess.run([*server.words(), "k"], input=typed, capture_output=True, timeout=120, env=ENVIRONMENT)
        server.end()
        return run.returncode, run.stdout.decode(), run.stderr.decode()

    def test_the_program_ends_at_a_refused_hello_though_the_connection_stays(self):
        self.assertEqual(self.run_client([b'{"n":0,"no":25,"refused":"SeatTaken"}\n'], close=False),
                         (1, "", "the server refused the hello: refused (SeatTaken): somebody sits there\n"))

    def test_the_program_ends_at_a_closed_connection(self):
        status, _, words = self.run_client([JOINED + b'{"change'], b"")
        self.assertEqual((status, words), (1, "the server closed the connection within a line\n"))

    def test_the_program_ends_at_a_line_that_cannot_be_read(self):
        status, _, words = self.run_client([JOINED + b"tabletop: out of memory\n"], close=False)
        self.assertEqual(status, 1)
        self.assertRegex(words, r"^the server sent a line that can't be read \(.+\): tabletop: out of memory\n$")

    def test_without_a_terminal_it_prints_and_says_bye_at_the_end(self):
        answers = [JOINED, b'{"n":2,"ok":"say"}\n{"from":1,"text":"hi","to":"all"}\n', LEFT]
        status, words, faults = self.run_client(answers, b"say hi", close=False)
        self.assertEqual((status, faults), (0, ""))
        shown = Table().notes + client.map_text(Table().seat.view, "cave")
        self.assertEqual(words.splitlines(), [*shown, "seat 1: hi", "you left the table"])

    def test_without_a_terminal_it_prints_the_fight(self):
        changes = [b'{"change":{"fight":%s}}\n' % fight for fight in (b'{"list":[["1:ann",7]],"round":1,"turn":"1:ann"}', b"null")]
        answers = [JOINED, b'{"n":2,"ok":"say"}\n' + changes[0], b'{"n":3,"ok":"say"}\n' + changes[1], LEFT]
        status, words, faults = self.run_client(answers, b"say a\nsay b", close=False)
        self.assertEqual((status, faults), (0, ""))
        self.assertEqual(words.splitlines()[-4:], ["== fight, round 1", ">    7 Ann 1:ann", "== the fight is shown no more", "you left the table"])


if __name__ == "__main__":
    unittest.main()
