"""What a token sees past one wall: walls that are touched at an end, that hold the eye, and that stand behind a cell. Without the built program
this is skipped.

    cd examples && python3 -m unittest test_sights
"""

import json
import os
import pathlib
import tempfile
import unittest

from test_runs import PROGRAM, ran, seat, token

# The cell and the size of a token on a map of 5 by 5 cells, the ends of a wall, a cell, whether it is seen, and how many are seen where that
# is told.
SIGHTS = [
    # The line to the cell touches the wall's end alone.
    ([0, 0], 1, [2, 2, 4, 0], [1, 1], False, None),
    # The eye is on the wall, and at the centre of its own cell.
    ([0, 0], 1, [1, 0, 1, 2], [0, 0], True, 1),
    # The wall is on the line to the cell, but behind the cell.
    ([0, 0], 1, [6, 1, 8, 1], [2, 0], True, None),
    # The wall is on the line to the cell, and before it.
    ([0, 0], 1, [3, 1, 4, 1], [2, 0], False, None),
    # The eye of a token of two by two cells is on the wall, and at no centre.
    ([1, 1], 2, [4, 4, 6, 4], [1, 1], False, 0),
]


@unittest.skipUnless(os.access(PROGRAM, os.X_OK), "the program isn't built")
class Sights(unittest.TestCase):
    def test_lines_of_sight_end_at_walls(self):
        folder = tempfile.TemporaryDirectory()
        self.addCleanup(folder.cleanup)
        file = pathlib.Path(folder.name) / "table.json"
        for cell, size, wall, other, is_seen, count in SIGHTS:
            ann = token(1, "ann", "Ann", 0) | {"cell": cell, "sight": "human", "size": size}
            maze = {"h": 5, "mbl": [], "mode": "day", "name": "maze", "rows": ["....."] * 5, "shown": True, "vbl": [wall], "w": 5}
            seats = [seat("g", {}, []), seat("a", {}, ["ann"])]
            campaign = {"format": 1, "lights": {}, "maps": [maze], "seats": seats, "sights": {"human": [40, 0, 2]}, "tokens": [ann]}
            file.write_text(json.dumps(campaign), encoding="utf-8")
            status, printed = ran(["play", str(file)], '1 {"do":"hello","key":"a","seat":1}\n')
            self.assertEqual(status, 0)
            full = json.loads(printed.splitlines()[1].removeprefix("1\t"))["full"]
            seen = {(x, y) for y, first, last in full["maps"][0]["seen"] for x in range(first, last + 1)}
            with self.subTest(wall=wall):
                self.assertEqual(tuple(other) in seen, is_seen)
                self.assertEqual(len(seen), len(seen) if count is None else count)


if __name__ == "__main__":
    unittest.main()
