"""Tests of the page of a large network: its data is packed, its size and the memory that it takes are held, and what a browser
shows is what it shows of data that is not packed."""
import base64
import json
import os
import subprocess
import tempfile
import unittest
import zlib
from unittest import mock

from afdx.page import html_page, json_text
from tests.places import EXAMPLES, tool_words
from tests.test_report import Browser, large_network, make, read

# What the browser shows: each cell of each table, of a virtual link and of a line too.
SHOWN = """
    const said = [];
    const take = () => said.push([...document.querySelectorAll("table")].map(it => [it.id, it.innerText, it.innerHTML.length]));
    document.querySelectorAll("button.all").forEach(it => it.click());
    dispatchEvent(new Event("beforeprint"));
    take();
    for (const hash of ["vl-%d", "line-%s"]) {
      location.hash = hash;
      dispatchEvent(new Event("hashchange"));
      take();
    }
    document.documentElement.dataset.said = JSON.stringify(said);
"""


def packed_of(page):
    """The data of a packed page."""
    text = page.partition('id="packed">')[2].partition("</script>")[0]
    return json.loads(zlib.decompress(base64.b64decode(text)))


class Texts(unittest.TestCase):
    def test_json_in_pieces(self):
        value = {"a": [1, None, "x", [2, 3]], "b": {"c": list(range(9999)), "d": {}, "e": []}, "f": "é<"}
        self.assertEqual("".join(json_text.pieces(value)), json_text.dumps(value))
        self.assertEqual("".join(json_text.pieces(iter([1, 2]))), "[1,2]")
        text = "".join(json_text.packed(["abc" * 1000, "", "é"]))
        self.assertEqual(zlib.decompress(base64.b64decode(text)).decode(), "abc" * 1000 + "é")

    def test_blocks(self):
        columns = {"a": range(600), "b": [None if i % 7 == 0 else i + 1 for i in range(600)], "c": ["x"] * 600}
        found = json.loads("".join(json_text.pieces(json_text.Blocks(columns, {"b": "a"}))))
        self.assertEqual(found["columns"], ["a", ["b", "a"], "c"])
        self.assertEqual([len(block[0]) for block in found["blocks"]], [256, 256, 88])
        self.assertEqual([value for block in found["blocks"] for value in block[1]], [None if i % 7 == 0 else 1 for i in range(600)])

    def test_lists_after_the_one_before(self):
        self.assertEqual(list(json_text.after_the_one_before([[1, 2, 3], [1, 2, 4, 5], [6], []])), [[0, 1, 2, 3], [2, 4, 5], [0, 6], [0]])


class Large(unittest.TestCase):
    def setUp(self):
        made = tempfile.TemporaryDirectory()
        self.addCleanup(made.cleanup)
        self.folder = made.name

    def file(self, name):
        return os.path.join(self.folder, name)

    def test_a_browser_shows_the_same(self):
        """Of an example with limits, bounds and what was measured on the way."""
        net, browser = os.path.join(EXAMPLES, "cockpit.toml"), Browser(self.folder)
        tables, hops, bounds = (self.file(name) for name in ("tables.csv", "hops.csv", "bounds.csv"))
        with open(tables, "w", encoding="ascii") as out:
            subprocess.run([*tool_words("second-opinion"), net, "--hops", hops], stdout=out, check=True)
        subprocess.run([*tool_words("bounds"), net, "-o", bounds], check=True)
        said = []
        for most, name in ((html_page.MOST_PLAIN, "plain.html"), (0, "packed.html")):
            with mock.patch.object(html_page, "MOST_PLAIN", most):
                found = make(net, tables, "--hops", hops, "--bounds", bounds, "-o", self.file(name))
            self.assertEqual(found, (0, ""))
            self.assertEqual('id="packed"' in read(self.file(name)), most == 0)
            script = f"(window.unpacking ?? Promise.resolve()).then(() => {{{SHOWN % (101, 'SW_A1>SW_A2')}}});"
            page = browser.open(self.file(name), script, more=["--virtual-time-budget=30000"])
            said.append(json.loads(page.words["data-said"]))
        plain, packed = said
        self.assertGreater(len(plain[0]), 8)
        self.assertGreater(len(plain[1]), len(plain[0]))
        self.assertEqual(packed, plain)

    def test_size_and_memory(self):
        """4,000 virtual links with 24,000 lines of latencies, and their bounds: the page has some 3 MB and takes some 100 MB, and
        fails at twice as much; so that of 65,536 has less than 120 MB and takes less than 4 GB."""
        net = large_network(self.file("net.toml"), "--virtual-links", "4000", "--until", "5000000")
        tables, bounds, page = (self.file(name) for name in ("tables.csv", "bounds.csv", "page.html"))
        with open(tables, "w", encoding="ascii") as out:
            subprocess.run([*tool_words("second-opinion"), net], stdout=out, check=True)
        subprocess.run([*tool_words("bounds"), net, "-o", bounds], check=True)
        run = subprocess.Popen([*tool_words("report"), net, tables, "--bounds", bounds, "-o", page])
        _, status, used = os.wait4(run.pid, 0)
        run.returncode = os.waitstatus_to_exitcode(status)
        self.assertEqual(run.returncode, 0)
        self.assertLess(os.path.getsize(page), 8_000_000)
        self.assertLess(used.ru_maxrss * 1024, 240_000_000)
        data = packed_of(read(page))
        self.assertGreater(sum(len(block[0]) for block in data["ends"]["blocks"]), 23_000)


if __name__ == "__main__":
    unittest.main()
