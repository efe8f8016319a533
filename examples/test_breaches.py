"""Campaign texts: those that are off the format, each with the path and the rule of its first breach, and other spellings, which are read.
Without the built program this is skipped.

    cd examples && python3 -m unittest test_breaches
"""

import os
import pathlib
import tempfile
import unittest

from test_runs import PROGRAM, ran

# A seed.
ZEROS = "0" * 64

# Two maps, types, tokens, macros and what is exposed, in another spelling.
FULL = '''{"format":1, "lights":{"lamp":2, "torch":20}, "sights":{"elf":[40,20,4], "human":[10,0,2]}, "maps":[
{"name":"hall", "w":2, "h":1, "mode":"off", "shown":false, "rows":["a."], "vbl":[], "mbl":[]},
{"name":"cave", "w":4, "h":3, "mode":"night", "shown":true, "rows":["....",".w..","...z"], "vbl":[[2,0,2,4],[8,6,0,0]], "mbl":[[2,4,2,0]]}
], "seats":[
{"key":"g", "seed":"SEED", "drawn":0, "tags":["orc","elk"], "macros":{}, "fog":{}},
{"key":"a", "seed":"SEED", "drawn":0, "tags":["ann"], "macros":{"hit":"[r: 1d20] hit","bye":""}, "fog":{"hall":[], "cave":[[1,1,3],[1,0,1],[2,3,3]]}},
{"key":"b", "seed":"SEED", "drawn":0, "tags":[], "macros":{}, "fog":{}}
], "tokens":[
{"id":"1:ann", "name":"Ann", "map":"cave", "size":2, "cell":[2,1], "layer":"hidden", "owners":[2,1], "visible":false, "sight":"elf", "light":"lamp", "props":[["hp","10"],["mp",""]], "own":[["hp","5"]], "secret":[]},
{"id":"0:orc", "name":"Orc", "map":"hall", "size":1, "cell":[0,0], "layer":"token", "owners":[], "visible":true, "sight":null, "light":null, "props":[], "own":[], "secret":[["trap","pit"]]}
]}'''.replace("SEED", ZEROS)

# Two seats with the greatest number of words drawn, in another spelling.
TWO_SEATS = ''' {"tokens":[], "sights":{}, "seats":[
{"key":"g", "seed":"SEED", "drawn":0, "tags":[], "macros":{}, "fog":{}},
{"key":"a", "seed":"ff00000000000000000000000000000000000000000000000000000000000009", "drawn":4611686018427387903, "tags":[], "macros":{}, "fog":{}}
], "maps":[], "lights":{}, "format":1} '''.replace("SEED", ZEROS)

# A light, a darkness and a map with a trail, which only the second format has.
DARK = '''{"format":2, "lights":{"lamp":20, "murk":-20}, "sights":{}, "maps":[
{"name":"hall", "w":2, "h":1, "mode":"off", "shown":true, "trail":true, "rows":["a."], "vbl":[], "mbl":[]}
], "seats":[
{"key":"g", "seed":"SEED", "drawn":0, "tags":[], "macros":{}, "fog":{}}
], "tokens":[]}'''.replace("SEED", ZEROS)

# What is exposed in the first.
FOG = '{"hall":[], "cave":[[1,1,3],[1,0,1],[2,3,3]]}'

# Whole texts, and the path and the rule of the first breach.
OF_TEXTS = [
    ("", "", "json"),
    ('{"format":1', "", "json"),
    ("[]", "", "kind"),
    ("{}", "/format", "missing"),
    ('{"format":"1"}', "/format", "kind"),
    ('{"format":1.5}', "/format", "kind"),
    ('{"format":2}', "/lights", "missing"),
    ('{"format":3}', "/format", "range"),
    ('{"format":-1}', "/format", "range"),
    ('{"format":1,"more":0}', "/lights", "missing"),
    ('{"format":1,"lights":[]}', "/lights", "kind"),
    ('{"format":1,"lights":{},"maps":0,"sights":0}', "/sights", "kind"),
    ('{"format":1,"lights":{},"sights":{},"maps":{}}', "/maps", "kind"),
    ('{"format":1,"lights":{},"sights":{},"maps":[]}', "/seats", "missing"),
    ('{"format":1,"lights":{},"sights":{},"maps":[],"seats":{}}', "/seats", "kind"),
    ('{"format":1,"lights":{},"sights":{},"maps":[],"seats":[]}', "/seats", "range"),
    ('{"format":1,"lights":{},"sights":{},"maps":[],"seats":[0]}', "/seats/0", "kind"),
]

# What stands in the two seats, what is written in its place, and the path and the rule of the first breach then.
OF_SEATS = [
    ('"key":"a", ', "", "/seats/1/key", "missing"),
    ('"key":"a"', '"key":1', "/seats/1/key", "kind"),
    ('"key":"a"', '"key":""', "/seats/1/key", "range"),
    ('"a"', '"aaaaaaaaaaaaaaaaaaaaaaaaaaaaaaaaaaaaaaaaaaaaaaaaaaaaaaaaaaaaaaaaa"', "/seats/1/key", "range"),
    ('"seed"', '"see"', "/seats/0/seed", "missing"),
    ('"ff', '"f', "/seats/1/seed", "range"),
    ('"ff', '"fF', "/seats/1/seed", "form"),
    ('"ff', '"fg', "/seats/1/seed", "form"),
    ("4611686018427387903", "4611686018427387904", "/seats/1/drawn", "range"),
    ("4611686018427387903", "-1", "/seats/1/drawn", "range"),
    ("4611686018427387903", "null", "/seats/1/drawn", "kind"),
    ('"tags":[]', '"tags":{}', "/seats/0/tags", "kind"),
    ('"tags":[]', '"tags":["t","T"]', "/seats/0/tags/1", "form"),
    ('"tags":[]', '"tags":["t","u","t"]', "/seats/0/tags/2", "twice"),
    ('"macros":{}', '"macros":[]', "/seats/0/macros", "kind"),
    ('"macros":{}', '"macros":{"m":0}', "/seats/0/macros/m", "kind"),
    ('"macros":{}', '"macros":{"m":"","a/":0}', "/seats/0/macros/a~1", "form"),
    ('"macros":{}', '"macros":{"m":"[d6]"}', "/seats/0/macros/m", "form"),
    ('"macros":{}', '"macros":{"m":"[r: 101d6]"}', "/seats/0/macros/m", "range"),
    ('"fog":{}', '"fog":{"cave":[]}', "/seats/0/fog", "range"),
    ('903, "tags":[], "macros":{}, "fog":{}', '903, "tags":[], "macros":{}, "fog":{"cave":[]}', "/seats/1/fog/cave", "cross"),
    ('"fog":{}', '"fog":{}, "more":0', "/seats/0", "unknown"),
    ('"fog":{}', '"fo":{}', "/seats/0/fog", "missing"),
    ('], "maps"', ',0], "maps"', "/seats/2", "kind"),
    ('"tokens":[]', '"tokens":[0]', "/tokens/0", "kind"),
    ('"tokens":[]', '"tokens":[], "more":0', "", "unknown"),
    ('"seats":[', '"seats":[0,0,0,0,0,0,0,0,0,0,0,0,0,0,0,0,0,0,0,0,0,0,0,0,0,0,0,0,0,0,0,', "/seats/0", "kind"),
    ('"seats":[', '"seats":[0,0,0,0,0,0,0,0,0,0,0,0,0,0,0,0,0,0,0,0,0,0,0,0,0,0,0,0,0,0,0,0,', "/seats", "range"),
]

# The same in the light types and the map of the second format.
OF_DARK = [
    ('"murk":-20', '"murk":-21', "/lights/murk", "range"),
    ('"murk":-20', '"murk":0', "/lights/murk", "range"),
    ('"format":2', '"format":1', "/lights/murk", "range"),
    ('"trail":true, ', "", "/maps/0/trail", "missing"),
    ('"trail":true, "rows":["a."]', '"trail":1, "rows":0', "/maps/0/trail", "kind"),
    ('"mbl":[]', '"mbl":[], "more":0', "/maps/0", "unknown"),
]

# In the maps and types of the first.
OF_MAPS = [
    ('"lamp":2', '"lamp":-2', "/lights/lamp", "range"),
    ('"shown":false,', '"shown":false, "trail":false,', "/maps/0", "unknown"),
    ('"lamp":2', '"La/m~p":2', "/lights/La~1m~0p", "form"),
    ('"lamp":2', '"lamp":21', "/lights/lamp", "range"),
    ("[40,20,4]", "[40,20]", "/sights/elf", "range"),
    ("[40,20,4]", "[40,20,0]", "/sights/elf/2", "range"),
    ('"name":"hall"', '"name":"Hall"', "/maps/0/name", "form"),
    ('"name":"cave"', '"name":"hall"', "/maps/1/name", "twice"),
    ('"w":4', '"w":97', "/maps/1/w", "range"),
    ('"off"', '"dusk"', "/maps/0/mode", "form"),
    ('["a."]', '["a.",""]', "/maps/0/rows", "range"),
    ('"a."', '"a"', "/maps/0/rows/0", "range"),
    ('"a."', '"a-"', "/maps/0/rows/0", "form"),
    ("[8,6,0,0]", "[8,6,0]", "/maps/1/vbl/1", "range"),
    ("[8,6,0,0]", '[8,6,0,""]', "/maps/1/vbl/1/3", "kind"),
    ("[8,6,0,0]", "[9,6,0,0]", "/maps/1/vbl/1", "cross"),
    ("[8,6,0,0]", "[8,6,0,-1]", "/maps/1/vbl/1", "cross"),
    ("[8,6,0,0]", "[8,6,8,6]", "/maps/1/vbl/1", "cross"),
    ("[8,6,0,0]", "[2,4,2,0]", "/maps/1/vbl/1", "twice"),
]

# In what is exposed.
OF_FOG = [
    (FOG, "[]", "/seats/1/fog", "kind"),
    (FOG, '{"well":[]}', "/seats/1/fog/well", "cross"),
    (FOG, '{"We/l":[]}', "/seats/1/fog/We~1l", "cross"),
    (FOG, '{"cave":{}}', "/seats/1/fog/cave", "kind"),
    (FOG, '{"cave":[[0,1]]}', "/seats/1/fog/cave/0", "range"),
    (FOG, '{"cave":[[0,0,0],[3,0,0]]}', "/seats/1/fog/cave/1", "cross"),
    (FOG, '{"cave":[[0,0,4]]}', "/seats/1/fog/cave/0", "cross"),
    (FOG, '{"cave":[[0,2,1]]}', "/seats/1/fog/cave/0", "cross"),
    (FOG, '{"cave":[[0,-1,1]]}', "/seats/1/fog/cave/0", "cross"),
    (FOG, '{"cave":[[0,1,null]]}', "/seats/1/fog/cave/0/2", "kind"),
]

# In the tokens.
OF_TOKENS = [
    ('"1:ann"', '"1:bob"', "/tokens/0/id", "cross"),
    ('"1:ann"', '"0:ann"', "/tokens/0/id", "cross"),
    ('"1:ann"', '"01:ann"', "/tokens/0/id", "form"),
    ('"0:orc"', '"1:ann"', "/tokens/1/id", "twice"),
    ('"map":"cave"', '"map":"well"', "/tokens/0/map", "cross"),
    ('"size":2', '"size":5', "/tokens/0/size", "range"),
    ("[2,1]", "[3,1]", "/tokens/0/cell", "cross"),
    ("[2,1]", "[2,96]", "/tokens/0/cell/1", "range"),
    ('"hidden"', '"Hidden"', "/tokens/0/layer", "form"),
    ('[2,1], "visible"', '[2,3], "visible"', "/tokens/0/owners/1", "cross"),
    ('[2,1], "visible"', '[2,2], "visible"', "/tokens/0/owners/1", "twice"),
    ('[2,1], "visible"', '[0], "visible"', "/tokens/0/owners/0", "range"),
    ('"sight":"elf"', '"sight":"lamp"', "/tokens/0/sight", "cross"),
    ('"light":"lamp"', '"light":0', "/tokens/0/light", "kind"),
    ('["mp",""]', '["hp",0]', "/tokens/0/props/1/0", "twice"),
    ('["mp",""]', '["mp",0]', "/tokens/0/props/1/1", "kind"),
    ('"secret":[]', '"secret":[], "more":0', "/tokens/0", "unknown"),
    ('"owners":[2,1]', '"owners":[5]', "/tokens/0/owners/0", "cross"),
]


@unittest.skipUnless(os.access(PROGRAM, os.X_OK), "the program isn't built")
class Breaches(unittest.TestCase):
    def setUp(self):
        folder = tempfile.TemporaryDirectory()
        self.addCleanup(folder.cleanup)
        self.folder = pathlib.Path(folder.name)

    def checked(self, text):
        (self.folder / "table.json").write_text(text, encoding="utf-8")
        return ran(["check", "table.json"], folder=self.folder)

    def test_other_spellings_are_taken(self):
        for text, seats, maps, tokens in (FULL, 3, 2, 2), (TWO_SEATS, 2, 0, 0), (DARK, 1, 1, 0):
            self.assertEqual(self.checked(text), (0, f"ok: {seats} seats, {maps} maps, {tokens} tokens\n"))

    def test_what_they_mean(self):
        """Written, they are canonical texts, which are read and written as they are."""
        for text, part in (FULL, '"fog":{"cave":[[1,0,3],[2,3,3]]}'), (TWO_SEATS, '"drawn":4611686018427387903'), (DARK, '"lights":{"lamp":20,"murk":-20}'):
            self.checked(text)
            status, written = ran(["play", "table.json", "--end"], folder=self.folder)
            self.assertEqual((status, part in written), (0, True), written)
            self.checked(written)
            self.assertEqual(ran(["play", "table.json", "--end"], folder=self.folder), (0, written))

    def test_first_breaches(self):
        texts = [(text, path, rule) for text, path, rule in OF_TEXTS]
        for whole, breaches in (TWO_SEATS, OF_SEATS), (DARK, OF_DARK), (FULL, OF_MAPS), (FULL, OF_FOG), (FULL, OF_TOKENS):
            for old, new, path, rule in breaches:
                self.assertIn(old, whole)
                texts.append((whole.replace(old, new, 1), path, rule))
        for text, path, rule in texts:
            with self.subTest(path=path, rule=rule, text=text[-80:]):
                self.assertEqual(self.checked(text), (3, f"tabletop: bad campaign at {path}: {rule}\n"))


if __name__ == "__main__":
    unittest.main()
