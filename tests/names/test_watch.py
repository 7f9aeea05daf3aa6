"""What whoever runs a grid is shown of it."""

import os
import re
import sys
import tempfile
import time
import unittest
from pathlib import Path

sys.path.insert(0, os.path.dirname(os.path.abspath(__file__)))
from histories import HERE

from gridfs_client.answers import parse
from gridfs_client.grid import Nodes, Shape
from gridfs_client.watch_command import families, kept_metrics, own_metrics, page
from gridfs_client.watching import Column, Seen, TenantSeen

assert HERE
TOLD = parse("plan 4 0 2 3000 16 8.16 64.2 lines=3 rows=2 columns=2")


def seen(silent, columns=(Column(0, 10, 100, ()), Column(1, 95, 100, (2,))), homes=(0, 1)):
    return Seen((TenantSeen("ann", Nodes(TOLD, frozenset(silent), Shape(2, 2)), tuple(columns), homes), TenantSeen("bob", why="bob.key: <none>")), 1e9)


class Watched(unittest.TestCase):
    def test_what_to_do(self):
        for silent, wanted in (
            ((), [r"^Tenant ann has 95 percent of the room at column 1: ", r"^Node 2 lacks chunks of ann: "]),
            ((3,), [r"^Node 3 is silent: ", r"^Tenant ann has 95", r"^Node 2 lacks"]),
            ((0, 1), [r"^Nothing can be put or got: no column is wholly up\.", r"^Node 0 is silent", r"^Node 1 is silent", r"^Tenant ann has no session whose home answers: ann waits for node 0", r"^Tenant ann has 95", r"^Node 2"]),
        ):  # fmt: skip
            found = seen(silent).advice()
            self.assertEqual([bool(re.search(form, line)) for form, line in zip(wanted, found, strict=True)], [True] * len(wanted), found)
        self.assertEqual(seen((), [Column(0, 89, 100, ())]).advice(), [])
        self.assertIn("No node answers any tenant (no nodes)", Seen((TenantSeen("ann", why="no nodes"),)).advice()[0])

    def test_page(self):
        told = page(seen((3,)))
        for part in ("<h1>Node 3 is silent</h1>", "<td class='silent'>node 3: silent</td>", "<td class='up'>node 0</td>", "row 1 (not wholly up)", "column 1 (not wholly up)", "bob.key: &lt;none&gt;",
                     "<tr class='nearly'><td>ann</td><td>1</td><td>95 B</td><td>100 B</td><td>95</td></tr>"):  # fmt: skip
            self.assertIn(part, told)
        self.assertNotIn("<script", told)
        self.assertIn("No node answers", page(Seen(())))

    def test_metrics(self):
        """Those of several carriers are told together by their names, and those of one that has ended are left out."""
        with tempfile.TemporaryDirectory() as folder:
            for node, age in ((0, 1), (1, 2), (2, 1_000)):
                path = Path(folder, f"gridfs-{node}.prom")
                path.write_text(f"# HELP gridfs_a what\n# TYPE gridfs_a gauge\ngridfs_a{{node=\"{node}\"}} 1\n# HELP gridfs_b what\n# TYPE gridfs_b gauge\ngridfs_b{{node=\"{node}\"}} 2\n")
                os.utime(path, (time.time() - age,) * 2)
            told = list(families(kept_metrics([Path(folder)], time.time())))
        self.assertEqual(told, [line for name, value in (("a", 1), ("b", 2)) for line in (f"# HELP gridfs_{name} what", f"# TYPE gridfs_{name} gauge", *(f'gridfs_{name}{{node="{node}"}} {value}' for node in (0, 1)))])
        own = "\n".join(own_metrics(seen((3,)))).splitlines()
        for line in ('gridfs_watch_node_answers{node="3"} 0', 'gridfs_watch_node_answers{node="0"} 1', "gridfs_watch_goes_on 1", 'gridfs_watch_chunk_bytes{tenant="ann",column="1",state="used"} 95', 'gridfs_watch_tenant_is_out{tenant="bob"} 1'):
            self.assertIn(line, own)
        self.assertIn("gridfs_watch_goes_on 0", own_metrics(Seen(())).__iter__() and "\n".join(own_metrics(Seen(()))).splitlines())


if __name__ == "__main__":
    unittest.main()
