"""Texts of dice, macros and commands, and what the program answers to each: worked out apart from it. Without the built program this is
skipped.

    cd examples && python3 -m unittest test_texts
"""

import json
import os
import pathlib
import tempfile
import unittest

from test_runs import PROGRAM, ran, seat, small_map, token

# Texts off the grammar of dice, and the place where each leaves it.
DICE_FAULTS = [
    ("4d6k", 4),
    ("2d6 ", 3),
    ("01", 1),
    ("1d6r+1", 4),
    ("12d", 3),
    ("1234567890", 9),
    ("1+", 2),
    ("4D6", 1),
    ("1d6k2k1", 5),
    ("1d6k2r1", 5),
    ("1d6ee", 4),
    ("+1", 0),
    ("1d6x", 3),
    ("3é", 1),
]

# Dice off their limits.
DICE_LIMITS = [
    "101d6",
    "1d1001",
    "0d6",
    "1d0",
    "1+1+1+1+1+1+1+1+1+1+1+1+1+1+1+1+1",
    "999999999d6",
]

# Dice, what they come to on the seed of zeros, and how many words they use.
DICE_TOTALS = [
    ("1d20", 14, 1),
    ("d6", 5, 1),
    ("7", 7, 0),
    ("10-1d6", 5, 1),
    ("999999999-999999999-1", -1, 0),
    ("3d6r4", 16, 5),
    ("1d6r6", 4, 2),
    ("4d6e", 21, 5),
    ("1d1e", 11, 11),
    ("3d1e", 33, 33),
    ("2d4er1", 6, 2),
    ("8d6er2", 38, 10),
    ("4d6k3", 15, 4),
    ("4d6k0", 0, 4),
    ("4d6k4", 16, 4),
    ("4d6k9", 16, 4),
    ("4d6d1", 15, 4),
    ("4d6d0", 16, 4),
    ("4d6d4", 0, 4),
    ("4d6d9", 0, 4),
    ("4d6s4", 3, 4),
    ("4d6s0", 4, 4),
    ("4d6s6", 1, 4),
    ("4d6s7", 0, 4),
    ("1+1+1+1+1+1+1+1+1+1+1+1+1+1+1+1", 16, 0),
    ("100d1000", 45354, 100),
    ("d6-4d10er2k3+999999999", 999999978, 7),
]

# Texts of macros: none where they are of the grammar, else the place where they leave it, or the limit that their dice are off.
MACRO_TEXTS = [
    ("", None),
    ("]", 0),
    ("[1d20]", 1),
    ("[r: ]", 4),
    ("[r: 1", 5),
    ("\\x", 1),
    ("[r: 101d6]", "DiceLimit"),
    ("[r: 1; 2]", 5),
    ("[if(1): 1; 2]", None),
    ("[r: ((((((((((((((((((((((((((((((((1))))))))))))))))))))))))))))))))]", None),
    ("[r: (((((((((((((((((((((((((((((((((1)))))))))))))))))))))))))))))))))]", 36),
    ("[r: ---------------------------------1]", 36),
    ("[r: abs(abs(abs(abs(abs(abs(abs(abs(abs(abs(abs(abs(abs(abs(abs(abs(abs(abs(abs(abs(abs(abs(abs(abs(abs(abs(abs(abs(abs(abs(abs(abs(abs(1)))))))))))))))))))))))))))))))))]", 135),
    ("[r: foo(1)]", 7),
    ("[r: min(1)]", 9),
    ("[r: argc( )]", 9),
    ("[r,g: 1]", 3),
    ("[if(1),count(1): 1]", 7),
    ("[count(1): 1; 2]", 12),
    ('[r: "a]', 7),
    ('[r: "\\n"]', 6),
    ("[r: 1234567890123456789]", 22),
    ("[r: 1234567890d6]", 14),
    ("[r: x = y = 1]", 11),
    ("[r: 1|2]", 6),
    ("[r: 1 < = 2]", 8),
    ("[r: 1 == 2 == 3]", 11),
    ("[r: 1 +]", 7),
    ("[r: (1]", 6),
    ("[r: abcdefghijklmnopqrstuvwxy]", 28),
    ("[r; 1]", 2),
    ("[w 1: 1]", 2),
    ("[ r : 4d6k]", 10),
    ("a\\", 2),
    ("é]", 2),
    ("plain \\[é\\] text", None),
    ("[r: --------------------------------argc()]", None),
    ('[ w( 1 ) , count(2) : x = "a\\"b" + prop("1:ann", hp) ] and [h: min == 3 || !a && 2*3%4/5 != 6]', None),
    ("[gs: 4d6er1k3 >= 10]", None),
    ("[w(0d6): 1]", "DiceLimit"),
    ("[count(1d1001): 1]", "DiceLimit"),
    ("[if(1): 1; x = -(2 * 1d0)]", "DiceLimit"),
]

# Macros that seat 1 runs to itself with the argument `k`, and what it is told.
VALUES = [
    ('[r: prop("1:ann", "hp")] [r: own("1:ann", "mp")] [r: has("1:ann", "xp")] [r: setprop("1:ann", "hp", num("9"))] [r: setown("1:ann", "mp", 4)] [r: arg(0)] [r: argc()] [r: min(2, 3) + max(2, 3) + abs(-4)] [r: len("abc")]', "10 5 0 9 4 k 1 9 3"),
    ('[r: has("1:ann", "hp")] [r: has("no id", "hp")]', "1 0"),
    ('[r: num("-0")] [r: num("007")] [r: num("-12")] [r: num(5)]', "0 7 -12 5"),
    ("[r: 1 + 2 * 3 - 4 / 2]", "5"),
    ("[r: 0 - 7 / 2] [r: (0 - 7) / 2] [r: (0 - 7) % 3] [r: 7 % -3]", "-3 -3 -1 1"),
    ("[r: (-999999999999999999 * 9 - 223372036854775817) % -1]", "0"),
    ('[r: "a" + 1 + 2] [r: 1 + 2 + "a"]', "a12 3a"),
    ('[r: 1 == "1"] [r: 1 != "1"] [r: 2 == 2] [r: "a" == "a"]', "0 1 1 1"),
    ('[r: "a" < "b"] [r: 2 >= 3] [r: 2 <= 2] [r: "b" > "ba"]', "1 0 1 0"),
    ("[r: 0 && 1 / 0] [r: 5 || 1 / 0] [r: 0 || 7] [r: 3 && 0] [r: !0] [r: -(2)]", "0 1 1 0 1 -2"),
    ("[r: x = 3] [r: x = x + 1] [r: x]", "3 4 4"),
    ('[if(0): 1; 2][if("0"): 3; 4][if(0): 5][if(1): 6]', "236"),
    ("[count(3): count * 2] [r: count]", "0, 2, 4 2"),
    ("[count(0): 1]\\[x\\]\\\\", "[x]\\"),
    ("[w(1): 1][w(2): 2][g: 3][gs: 4][h: 5][s: 6][r: 7][s,if(1): 8][if(1),g: 9]", "14678"),
    ("[r: 2d6e] [r: 4d6k3]", "9 12"),
    ("[r: 1-2-3] hit", "-4 hit"),
    ('[r: setown("1:ann", "mp", 4)][r: setprop("1:ann", "hp", "x") + prop("1:ann", "hp")]', "4x10"),
]

# Macros that stop at a fault, its kind and its place.
FAULTS = [
    ("[r: x]", "NoName", 4),
    ("[count(0): 1][r: count]", "NoName", 17),
    ('[r: prop("1:ann", "xp")]', "NoProp", 4),
    ('[r: secret("1:ann", "hp")]', "NoProp", 4),
    ('[r: 1 + own("no id", "hp")]', "NoProp", 8),
    ('[r: prop("1:ann", 7)]', "NotText", 4),
    ('[r: setprop("1:orc", "HP", 1)]', "NotYours", 4),
    ('[r: setown("1:ann", "HP", 1)]', "BadName", 4),
    ('[r: setown(1, "HP", 1)]', "NotText", 4),
    ('[h: a = "0123456789"][h,count(5): a = a + a][r: setprop("1:ann", "hp", a)]', "LongValue", 48),
    ('[h: a = "0123456789"][h,count(9): a = a + a]', "LongText", 40),
    ('[h: a = "0123456789"][h,count(8): a = a + a][r: a][r: a][r: a][r: a][r: a]', "LongOutput", 68),
    ("[r: 1 / 0]", "DivZero", 6),
    ("[r: 1 % (2 - 2)]", "DivZero", 6),
    ('[r: "a" / 0]', "NotNumber", 8),
    ('[r: 1 - "a"]', "NotNumber", 6),
    ('[r: 1 < "a"]', "NotNumber", 6),
    ('[r: "a" < 1]', "NotText", 8),
    ('[r: "a" && 1 / 0]', "NotNumber", 8),
    ('[r: 1 && "a"]', "NotNumber", 6),
    ('[r: -"a"]', "NotNumber", 4),
    ('[r: !"a"]', "NotNumber", 4),
    ('[r: min(1, "a")]', "NotNumber", 4),
    ('[r: abs("a")]', "NotNumber", 4),
    ('[r: num("+1")]', "NotNumber", 4),
    ('[r: num("")]', "NotNumber", 4),
    ('[r: max("a", 1)]', "NotNumber", 4),
    ("[r: len(1)]", "NotText", 4),
    ('[r: has(1, "hp")]', "NotText", 4),
    ('[r: setprop("1:ann", 7, 1)]', "NotText", 4),
    ('[r: setprop("no id", "hp", 1)]', "NotYours", 4),
    ('[r: prop("1:ann", "HP")]', "NoProp", 4),
    ('[r: "a" * 1]', "NotNumber", 8),
    ('[r: 1 % "a"]', "NotNumber", 6),
    ('[r: 0 || "a"]', "NotNumber", 6),
    ("[r: arg(1)]", "BadArg", 4),
    ("[r: arg(-1)]", "BadArg", 4),
    ('[r: arg("a")]', "NotNumber", 4),
    ("[ w(3) : 1]", "NoSeat", 2),
    ('[w("a"): 1]', "NotNumber", 1),
    ("[count(1001): 1]", "BadCount", 1),
    ("[s, count(-1): 1]", "BadCount", 4),
    ('[count("a"): 1]', "NotNumber", 1),
    ("[w(9),count(9999): 1]", "NoSeat", 1),
]

# Macros whose numbers pass the greatest or the least.
OVERFLOWS = [
    "[r: 999999999999999999 * 99]",
    "[r: 999999999999999999 * 9 + 999999999999999999]",
    "[r: -999999999999999999 * 9 - 999999999999999999]",
    "[r: (-999999999999999999 * 9 - 223372036854775817) / -1]",
    "[r: -(-999999999999999999 * 9 - 223372036854775817)]",
    "[r: abs(-999999999999999999 * 9 - 223372036854775817)]",
]

# Lines of the game master's that are no commands, the refusal of each, and the field that is bad.
LINES = [
    ('{"do":"macro","name":"hit","args":null}', "BadField", "args"),
    ('{"do":"setmacro","name":"hit"}', "BadField", "text"),
    ('{"do":"trail","map":"cave","on":1}', "BadField", "on"),
    ('{"do":"lighttype","name":"murk","radius":-1001}', "BadField", "radius"),
    ('{"do":"lighttype","name":"torch","radius":1001}', "BadField", "radius"),
    ('{"do":', "BadJson", ""),
    ('{"do":"move","path":[[1.5,0]],"token":"1:ann"}', "BadField", "path"),
    ('{"do":"bye","z":1,"to":1}', "BadField", "to"),
    ('{"do":"say","text":"hi","to":null}', "BadField", "to"),
    ("{}", "BadCommand", ""),
]


def campaign(drawn: int = 0) -> str:
    """Three seats, and a token of the first player's with a property that all see and one of its own."""
    ann = token(1, "ann", "Ann", 0) | {"map": "hall", "own": [["mp", "5"]], "props": [["hp", "10"]]}
    seats = [seat("g", {}, []), seat("a", {}, ["ann"]) | {"drawn": drawn}, seat("b", {}, [])]
    return json.dumps({"format": 1, "lights": {}, "maps": [small_map("hall")], "seats": seats, "sights": {}, "tokens": [ann]})


@unittest.skipUnless(os.access(PROGRAM, os.X_OK), "the program isn't built")
class Texts(unittest.TestCase):
    def setUp(self):
        folder = tempfile.TemporaryDirectory()
        self.addCleanup(folder.cleanup)
        self.folder = pathlib.Path(folder.name)
        (self.folder / "table.json").write_text(campaign(), encoding="utf-8")

    def answers(self, *commands, number=1, words=()):
        """What the seat is told behind its hello's two lines, as values, and with `--end` the campaign behind it."""
        hello = {"do": "hello", "key": "ga"[number], "seat": number}
        script = "".join(f"{number} {line if isinstance(line, str) else json.dumps(line)}\n" for line in (hello, *commands))
        status, printed = ran(["play", "table.json", *words], script, self.folder)
        self.assertEqual(status, 0)
        return [json.loads(line.removeprefix(f"{number}\t")) for line in printed.splitlines()[2:]]

    def refusal(self, answer):
        return {key: answer[key] for key in answer if key not in ("n", "no")}

    def rolled(self, dice):
        """What the dice come to, and the place in the seat's words behind them."""
        *_, told, written = self.answers({"do": "roll", "dice": dice, "to": "self"}, words=["--end"])
        return told["text"], written["seats"][1]["drawn"]

    def run_macro(self, text):
        """What is answered to the run of a macro by seat 1, to itself."""
        macro = {"do": "setmacro", "name": "m", "text": text}
        return self.answers(macro, {"do": "macro", "name": "m", "args": ["k"], "to": "self"})[1:]

    def test_dice_off_the_grammar(self):
        answers = self.answers(*({"do": "roll", "dice": dice, "to": "self"} for dice, _ in DICE_FAULTS))
        self.assertEqual([self.refusal(answer) for answer in answers], [{"at": at, "refused": "BadDice"} for _, at in DICE_FAULTS])

    def test_dice_off_their_limits(self):
        answers = self.answers(*({"do": "roll", "dice": dice, "to": "self"} for dice in DICE_LIMITS))
        self.assertEqual([self.refusal(answer) for answer in answers], [{"refused": "DiceLimit"}] * len(DICE_LIMITS))

    def test_totals_and_words(self):
        for dice, total, words in DICE_TOTALS:
            with self.subTest(dice):
                self.assertEqual(self.rolled(dice), (f"{dice} = {total}", words))

    def test_places_of_words_go_round(self):
        (self.folder / "table.json").write_text(campaign((1 << 62) - 2), encoding="utf-8")
        self.assertEqual(self.rolled("4d6"), ("4d6 = 16", 2))

    def test_macros(self):
        answers = self.answers(*({"do": "setmacro", "name": "m", "text": text} for text, _ in MACRO_TEXTS))
        self.assertEqual(len(answers), len(MACRO_TEXTS))
        for (text, fault), answer in zip(MACRO_TEXTS, answers):
            refused = {"ok": "setmacro"} if fault is None else {"refused": fault} if fault == "DiceLimit" else {"at": fault, "refused": "MacroSyntax"}
            with self.subTest(text):
                self.assertEqual(self.refusal(answer), refused)

    def test_values(self):
        for text, value in VALUES:
            with self.subTest(text):
                answer, told, *_ = self.run_macro(text)
                self.assertEqual((answer["ok"], told["text"]), ("macro", value))

    def test_faults_and_their_places(self):
        for text, kind, place in FAULTS:
            with self.subTest(text):
                self.assertEqual([self.refusal(answer) for answer in self.run_macro(text)], [{"at": place, "kind": kind, "refused": "MacroFault"}])

    def test_numbers_have_limits(self):
        for text in OVERFLOWS:
            with self.subTest(text):
                self.assertEqual([self.refusal(answer) for answer in self.run_macro(text)], [{"refused": "Overflow"}])

    def test_lines_that_are_no_commands(self):
        answers = self.answers(*(line for line, _, _ in LINES), number=0)
        self.assertEqual(len(answers), len(LINES))
        for (line, fault, name), answer in zip(LINES, answers):
            with self.subTest(line):
                self.assertEqual(self.refusal(answer), {"field": name, "refused": fault} if name else {"refused": fault})

    def test_script_lines(self):
        for line in "33 {}", "99 {}", "01 {}", "1", "12", " {}", "{} 1", "+1 {}", "3 {}":
            with self.subTest(line):
                self.assertEqual(ran(["play", "table.json"], f"{line}\n", self.folder), (7, "tabletop: bad script line 1\n"))
        # Behind the seat and one space all is the command, also nothing.
        for line in "0 {}", "1 ", "2  {} 1":
            with self.subTest(line):
                answer = '\t{"n":0,"no":27,"refused":"NoHello"}\n'
                self.assertEqual(ran(["play", "table.json"], f"{line}\n", self.folder), (0, line[0] + answer))

    def test_a_player_gives_no_command_of_the_game_master(self):
        answers = self.answers('{"do":"map"}', '{"do":"trail"}')
        self.assertEqual([self.refusal(answer) for answer in answers], [{"refused": "GmOnly"}] * 2)


if __name__ == "__main__":
    unittest.main()
