"""Tests of watch.py: the line on a terminal that says what a tool does where it says nothing for long."""
import os
import pty
import subprocess
import sys
import tempfile
import threading
import time
import unittest

from tests.places import EXAMPLES, PATIENCE, read_terminal, tool_words

N1 = os.path.join(EXAMPLES, "n1.toml")


class OnATerminal(unittest.TestCase):
    def setUp(self):
        folder = tempfile.TemporaryDirectory()
        self.addCleanup(folder.cleanup)
        self.folder = folder.name

    def shown(self, *command, while_it_runs=lambda: None):
        """What a command writes to a terminal as its error output, its status, and what it prints."""
        terminal, end = pty.openpty()
        run = subprocess.Popen(command, stdout=subprocess.PIPE, stderr=end, stdin=subprocess.DEVNULL, cwd=self.folder)
        os.close(end)
        while_it_runs()
        printed = run.communicate(timeout=PATIENCE)[0]
        return read_terminal(terminal), run.returncode, printed.decode()

    def test_a_tool_that_waits_for_its_input(self):
        """The line is there after two seconds, and gone before anything is said."""
        os.mkfifo(os.path.join(self.folder, "pipe"))
        begin = time.monotonic()

        def give():
            with open(os.path.join(self.folder, "pipe"), "w") as out, open(N1) as file:
                time.sleep(8)
                out.write(file.read())

        for words, printed in ((["explain", "pipe"], "pipe: accepted\n"), (["bounds", "pipe", "-o", "bounds.csv"], "")):
            giver = threading.Thread(target=give)
            tool, *words = words
            shown, status, found = self.shown(*tool_words(tool), *words, while_it_runs=giver.start)
            giver.join()
            self.assertEqual((status, found), (0, printed))
            self.assertRegex(shown, rb"^\r\x1b\[Kafdx " + tool.encode() + rb": reads pipe, \d+ s")
            self.assertTrue(shown.endswith(b"\r\x1b[K"))
        self.assertGreater(time.monotonic() - begin, 5)

    def test_a_quick_tool_and_one_without_a_terminal(self):
        """They say nothing."""
        script = "import time; from afdx import files; from afdx.files import watch\nwatch.PATIENCE, watch.EACH = %s, 0.1\n" \
            "@files.tool('x')\ndef main(_): watch.stage('counts'); time.sleep(3); files.report('x', 'found'); time.sleep(0.3)\nmain()"
        self.assertEqual(self.shown(sys.executable, "-c", script % 900)[0], b"x: found\r\n")
        shown = self.shown(sys.executable, "-c", script % 0.2)[0]
        self.assertRegex(shown, rb"^(\r\x1b\[K[^:]*: counts, \d+ s)+\r\x1b\[Kx: found\r\n(\r\x1b\[K[^:]*: counts, \d+ s)*\r\x1b\[K$")
        run = subprocess.run([sys.executable, "-c", script % 0.2], capture_output=True)
        self.assertEqual(run.stderr, b"x: found\n")


if __name__ == "__main__":
    unittest.main()
