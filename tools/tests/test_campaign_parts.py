"""Tests of parts of a campaign and of their merge, by a stand-in for the program: the parts together are the campaign that is made at once,
byte for byte, and what is of another campaign, twice there or missing is refused."""
import contextlib
import io
import json
import os
import shutil
import unittest
import xml.etree.ElementTree as xml

from afdx.commands import campaign
from tests.test_campaign import SATURATED, Here, read


class Parts(Here):
    """Seven seeds of a port that loses frames, at once and in three parts."""

    def setUp(self):
        super().setUp()
        self.stand_in()
        self.net = self.file("net.toml", read(SATURATED).replace("until_ns = 200000000", "until_ns = 40000000"))

    def run_by(self, *words, to):
        out, err = io.StringIO(), io.StringIO()
        with contextlib.redirect_stdout(out), contextlib.redirect_stderr(err):
            try:
                status = campaign.main([*words, "-o", os.path.join(self.folder, to)])
            except SystemExit as ended:
                status = ended.code
        return status, out.getvalue(), err.getvalue()

    def part(self, text, *words, to, seeds="7"):
        words = [self.net, "--seeds", seeds, "--offsets", "--histograms", "--part", text, "--jobs", "2", "--program", self.program, *words]
        self.assertEqual(self.run_by(*words, to=to)[0], 0)
        return os.path.join(self.folder, to)

    def files(self, to):
        folder = os.path.join(self.folder, to)
        return {name: read(os.path.join(folder, name)) for name in os.listdir(folder)}

    def test_parts_together_are_the_campaign_at_once(self):
        words = [self.net, "--seeds", "7", "--offsets", "--histograms", "--json", "--jobs", "2", "--program", self.program]
        self.assertEqual(self.run_by(*words, to="whole")[0], 0)
        parts = [self.part(f"{i}/3", to=f"part-{i}") for i in (2, 3, 1)]
        seeds = [json.loads(read(os.path.join(path, "campaign.json"))) for path in sorted(parts)]
        self.assertEqual([(it["first_seed"], it["seeds"]) for it in seeds], [(1, 2), (3, 2), (5, 3)])
        os.unlink(self.program)
        status, out, err = self.run_by(self.net, "--merge", *parts, "--json", to="together")
        self.assertEqual((status, err), (0, ""))
        self.assertIn("7 runs merged, seeds 1 to 7, in ", out)
        self.assertEqual(self.files("together"), self.files("whole"))
        self.assertIn("dropped,", self.files("whole")["merged.csv"])

    def test_limits_of_the_merge(self):
        parts = [self.part(f"{i}/2", to=f"part-{i}") for i in (1, 2)]
        limits = self.file("limits.csv", "11,REC,1000\n12,REC,900000000\n")
        report = os.path.join(self.folder, "junit.xml")
        status, out, err = self.run_by(self.net, "--merge", *parts, "--limits", limits, "--junit", report, to="together")
        self.assertEqual((status, err), (1, ""))
        self.assertIn("limits: 2, broken: 1\nlimit broken: virtual link 11 at REC has 1 us, and took ", out)
        root = xml.parse(report).getroot()
        self.assertEqual((root.tag, root.get("tests"), root.get("failures")), ("testsuites", "2", "1"))

    def test_what_is_refused(self):
        one, two = self.part("1/2", to="one"), self.part("2/2", to="two")
        third = self.part("2/3", to="third")
        later = self.part("2/2", "--first", "2", to="later")
        shorter = self.part("2/2", "--until", "30000000", to="shorter")
        whole = os.path.join(self.folder, "whole")
        self.assertEqual(self.run_by(self.net, "--seeds", "2", "--program", self.program, to="whole")[0], 0)
        changed = {name: os.path.join(self.folder, name) for name in ("edited", "unfinished", "other", "plain", "earlier", "lost")}
        for path in changed.values():
            shutil.copytree(two, path)
        with open(os.path.join(changed["edited"], "greatest.csv"), "a", encoding="utf-8") as out:
            out.write("1,REC,1,1,1,1,1,1\n")
        os.unlink(os.path.join(changed["lost"], "campaign.json"))
        record = json.loads(read(os.path.join(two, "campaign.json")))
        other, earlier = record["program"] | {"sha256": "0" * 64}, {"offset_rule": "python"}
        for name, more in (("unfinished", {"seeds": 1}), ("other", {"program": other}), ("plain", {"offsets": False}), ("earlier", earlier)):
            self.file(f"{name}/campaign.json", json.dumps(record | more))
        another = self.file("another.toml", read(self.net).replace("seed = 1", "seed = 2"))
        for net, folders, said in (
            (self.net, [one], "--merge: part 2/2 is missing, with the seeds 4 to 7"),
            (self.net, [two], "--merge: part 1/2 is missing, with the seeds 1 to 3"),
            (self.net, [one, two, one], "is part 1/2, and so is "),
            (self.net, [one, third], "is part 2/3 of the seeds 1 to 7, and "),
            (self.net, [one, later], "is part 2/2 of the seeds 2 to 8, and "),
            (self.net, [one, shorter], "its runs end at 30000000 ns, and those of "),
            (self.net, [one, whole], "whole/campaign.json: is no part of a campaign"),
            (self.net, [one, changed["edited"]], "edited/greatest.csv: is not the file that "),
            (self.net, [one, changed["lost"]], "lost: has no campaign.json"),
            (self.net, [one, changed["unfinished"]], "has 1 seeds from 4 on, and part 2/2 has 4 from 4 on: run it anew"),
            (self.net, [one, changed["other"]], f"(SHA-256 {'0' * 64}), and those of "),
            (self.net, [one, changed["plain"]], "its offsets are those of the description, and those of "),
            (self.net, [one, changed["earlier"]], "its offsets are drawn by the rule 'python', and those of "),
            (another, [one, two], "is of another description: its checksum is "),
        ):
            with self.subTest(said):
                status, out, err = self.run_by(net, "--merge", *folders, to="together")
                self.assertEqual((status, out), (2, ""))
                self.assertIn(said, err)
                self.assertNotIn("Traceback", err)
                self.assertFalse(os.path.exists(os.path.join(self.folder, "together")))

    def test_words(self):
        for words, said in (
            (["--seeds", "2", "--part", "3/3"], "--part 3/3: 2 seeds have no 3 parts"),
            (["--seeds", "9", "--part", "4/3"], "'4/3' is no part, as 3/16"),
            (["--seeds", "9", "--part", "0/3"], "'0/3' is no part, as 3/16"),
            (["--aim", "all", "--part", "1/3"], "--part is of runs over seeds, and not with --aim"),
            (["--merge", "a", "--seeds", "3"], "--merge makes no runs, and takes no --seeds"),
            (["--merge", "a", "--jobs", "3"], "--merge makes no runs, and takes no --jobs"),
            (["--merge", "a", "--offsets"], "--merge makes no runs, and takes no --offsets"),
            (["--merge", "a", "--each-outage"], "--merge makes no runs, and takes no --each-outage"),
        ):
            with self.subTest(words):
                status, _, err = self.run_by(self.net, *words, to="together")
                self.assertEqual(status, 2)
                self.assertIn(said, err)


if __name__ == "__main__":
    unittest.main()
