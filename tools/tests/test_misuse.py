"""What the tools answer where they are given what they cannot use: each row of the table is a call, its status, and the line
that it says. No call of it changes any file, and none leaves one."""
import contextlib
import hashlib
import json
import os
import resource
import shutil
import signal
import subprocess
import sys
import tempfile
import threading
import unittest
from unittest import mock

from afdx import files
from tests.test_campaign import STAND_IN
from tests.places import EXAMPLES, PATIENCE, TOOLS, tool_words

N1 = os.path.join(EXAMPLES, "n1.toml")

# In the folder of each row are these files, and besides: link.toml, a link to net.toml; hard.toml, a second name of it;
# one.csv and two.csv, which are links to no file yet; `afdxsim`, a program that prints what the plain simulator finds.
FILES = {
    "tables.csv": "table,vl,where,cause,count,least_ns,greatest_ns,sum_ns\nlatency,1,ES2,,1,27720,27720,27720\n",
    "trace.csv": "time_ns,where,vl,what,value\n27720,ES2,1,delivered,27720\n",
    "limits.csv": "1,ES2,50000\n",
    "bounds.csv": "",
    "broken.xlsx": "PK\x03\x04",
    # A section and an interface, eth0, without packets.
    "bench.pcapng": "\n\r\r\n\x1c\0\0\0M<+\x1a\1\0\0\0" + "\0" * 8 + "\x1c\0\0\0"
    + "\1\0\0\0\x20\0\0\0\1\0\0\0\0\0\0\0\2\0\4\0eth0\0\0\0\0\x20\0\0\0",
    "DIR/merged.csv": "1,ES2,50000\n",
}

# Which tool, its words, the status, and what it says behind its name.
READ = "would be written over what was read as {}; nothing is written"
TWICE = "would be written over {}, which is written too; nothing is written"
NO_FILE = "is no file: without -o most tools write to standard output, and ./- is a file of this name"
WINDOWS = "ends with CR LF, as all lines do that Windows writes, and the program writes LF: sed -i 's/\\r$//' mends the file"
ROWS = [
    # What is read is never written over.
    ("report net.toml tables.csv -o net.toml", 2, "net.toml: " + READ.format("net.toml")),
    ("report net.toml tables.csv -o link.toml", 2, "link.toml: " + READ.format("net.toml")),
    ("report net.toml tables.csv -o hard.toml", 2, "hard.toml: " + READ.format("net.toml")),
    ("report net.toml tables.csv -o ./DIR/../net.toml", 2, "./DIR/../net.toml: " + READ.format("net.toml")),
    ("report hard.toml tables.csv -o net.toml", 2, "net.toml: " + READ.format("hard.toml")),
    ("report net.toml tables.csv -o tables.csv", 2, "tables.csv: " + READ.format("tables.csv")),
    ("report net.toml tables.csv --trace trace.csv -o trace.csv", 2, "trace.csv: " + READ.format("trace.csv")),
    ("report net.toml tables.csv --limits limits.csv -o limits.csv", 2, "limits.csv: " + READ.format("limits.csv")),
    ("report net.toml tables.csv --bounds bounds.csv -o bounds.csv", 2, "bounds.csv: " + READ.format("bounds.csv")),
    ("report net.toml tables.csv --against tables.csv -o tables.csv", 2, "tables.csv: " + READ.format("tables.csv")),
    ("bounds net.toml -o net.toml", 2, "net.toml: " + READ.format("net.toml")),
    ("bounds net.toml -o link.toml", 2, "link.toml: " + READ.format("net.toml")),
    ("bounds net.toml --fit net.toml", 2, "net.toml: " + READ.format("net.toml")),
    ("bounds net.toml --fit ./DIR/../link.toml", 2, "./DIR/../link.toml: " + READ.format("net.toml")),
    ("bounds hard.toml --fit net.toml", 2, "net.toml: " + READ.format("hard.toml")),
    ("bounds net.toml --fit /dev/full", 2, "/dev/full: cannot be written: No space left on device"),
    ("bounds net.toml >> net.toml", 2, "standard output: " + READ.format("net.toml")),
    ("explain net.toml >> link.toml", 2, "standard output: " + READ.format("net.toml")),
    ("table net.csv -o net.csv", 2, "net.csv: " + READ.format("net.csv")),
    ("table --back net.toml -o hard.toml", 2, "hard.toml: " + READ.format("net.toml")),
    ("second-opinion net.toml --trace link.toml", 2, "link.toml: " + READ.format("net.toml")),
    ("second-opinion net.toml --trace tables.csv >> tables.csv", 2, "tables.csv: would be written over standard output, which is written too; nothing is written"),
    ("make-journal net.toml >> net.toml", 2, "standard output: " + READ.format("net.toml")),
    ("campaign DIR/seed-42.toml --seeds 1 --keep -o DIR", 2, "DIR/seed-42.toml: " + READ.format("DIR/seed-42.toml")),
    ("campaign net.toml --seeds 1 --limits DIR/merged.csv -o DIR", 2, "DIR/merged.csv: " + READ.format("DIR/merged.csv")),
    ("campaign net.toml --seeds 1 -o LINKED", 2, "LINKED/merged.csv: " + READ.format("net.toml")),
    ("campaign net.toml --each-outage -o LINKED", 2, "LINKED/merged.csv: " + READ.format("net.toml")),
    ("campaign net.toml --seeds 1 -o DOUBLE", 2, "DOUBLE/merged.csv: would be written over DOUBLE/greatest.csv, which is written too; nothing is written"),
    # Where nothing can be read or written.
    ("report none.toml tables.csv -o page.html", 2, "none.toml: cannot be read: No such file or directory"),
    ("report DIR tables.csv -o page.html", 2, "DIR: cannot be read: Is a directory"),
    ("report net.toml tables.csv -o DIR", 2, "DIR: cannot be written: Is a directory"),
    ("report net.toml tables.csv -o none/page.html", 2, "none/page.html: cannot be written: No such file or directory"),
    ("report net.toml tables.csv -o /dev/full", 2, "/dev/full: cannot be written: No space left on device"),
    ("explain /dev/zero", 2, "/dev/zero: cannot be read: it is a device and no file"),
    ("report net.toml tables.csv --trace /dev/full -o page.html", 2, "/dev/full: cannot be read: it is a device and no file"),
    ("report net.toml tables.csv --limits  -o page.html", 2, "'': is no name and no value: a word is empty, as where a variable of the shell is not set"),
    ("explain - -", 2, "-: is standard input, which can be read once, and was read before: name a file"),
    ("bounds net.toml -o /dev/full", 2, "/dev/full: cannot be written: No space left on device"),
    ("bounds net.toml >> /dev/full", 2, "standard output: cannot be written: No space left on device"),
    ("explain net.toml >> /dev/full", 2, "standard output: cannot be written: No space left on device"),
    ("large-network >> /dev/full", 2, "standard output: cannot be written: No space left on device"),
    ("make-journal net.toml >> /dev/full", 2, "standard output: cannot be written: No space left on device"),
    ("second-opinion net.toml >> /dev/full", 2, "standard output: cannot be written: No space left on device"),
    ("bounds net.toml >&-", 2, "standard output: cannot be written: it is closed"),
    # What is of another network, another run, or another campaign. other.toml is net.toml with 10 Mbit/s, 100 bytes and seed 1;
    # RUNS is the folder of a campaign of net.toml with the seeds 42 to 44, and copy.csv its merged tables.
    (
        "report other.toml tables.csv -o page.html", 2,
        "tables.csv line 2: a frame of virtual link 1 came to ES2 in 27720 ns, and it takes 189000 ns at least; so they are "
        "tables of another network than other.toml",
    ),
    (
        "report net.toml lost.csv -o page.html", 2,
        "lost.csv line 3: frames of virtual link 1 were lost at ES1>SW1 as outage, and ES1>SW1 has no outage; so they are "
        "tables of another network than net.toml",
    ),
    (
        "report net.toml long.csv -o page.html", 2,
        "long.csv line 3: frames of virtual link 1 were lost at SW1 as too_long, and its size is not above its smax; so they "
        "are tables of another network than net.toml",
    ),
    (
        "report twice.toml lost.csv --trace sized.csv -o page.html", 2,
        "sized.csv line 2: a frame of virtual link 1 has 65 bytes, and in twice.toml it has 64",
    ),
    ("report net.toml tables.csv --bounds tables.csv -o page.html", 2, "tables.csv line 1: the columns are not those of bounds: bound_ns is not among them"),
    ("report net.toml tables.csv --seeds 3 -o page.html", 2, "tables.csv: these are the tables of one run, and --seeds means a campaign"),
    ("report net.toml DIR -o page.html", 2, "DIR: has no campaign.json that is the record of its merged.csv"),
    ("report net.toml RUNS --trace trace.csv -o page.html", 2, "trace.csv: is the trace of one run, and RUNS/merged.csv has the tables of several"),
    ("report net.toml RUNS --seeds 4 -o page.html", 2, "RUNS/merged.csv: the campaign had 3 seeds from 42 on, without drawn offsets, and the words say something else: leave them out"),
    ("report net.toml RUNS/merged.csv --seeds 3 --offsets -o page.html", 2, "RUNS/merged.csv: the campaign had 3 seeds from 42 on, without drawn offsets, and the words say something else: leave them out"),
    ("report net.toml copy.csv --seeds 3 --first 43 -o page.html", 2, "copy.csv line 2: the seed 42 is none of the 3 seeds from 43 on, so the campaign had others"),
    ("report net.toml copy.csv --seeds 1000 --first 9223372036854775000 -o page.html", 2, "net.toml: the seeds from 9223372036854775000 on would pass 9223372036854775807"),
    ("report net.toml copy.csv --seeds 2 -o page.html", 2, "copy.csv line 2: 2 frames of virtual link 1 would be sent to ES2, and the tables have 3 delivered, 0 copies and 0 lost; so they are tables of another run than that of net.toml"),
    ("report same.toml RUNS -o page.html", 2, "RUNS/merged.csv: these are tables of a campaign with another description: its checksum is '{net}', and that of same.toml is {same}"),
    ("report same.toml tables.csv --bounds bounds.csv -o page.html", 2, "bounds.csv line 2: these are bounds of another description: its checksum is '{net}', and that of same.toml is {same}. `afdx bounds` computes them anew"),
    ("report net.toml BAD -o page.html", 2, "BAD/campaign.json line 1: is no JSON: Expecting value"),
    ("report net.toml DEEP -o page.html", 2, "DEEP/campaign.json: is no JSON: a number is too long, or it is nested too deep"),
    ("report net.toml LACKS -o page.html", 2, "LACKS/campaign.json: is no record of a campaign: it has no description"),
    # Numbers of any length.
    ("report net.toml huge.csv -o page.html", 2, "huge.csv line 2: count has 5,000 digits, and may have 100"),
    ("report net.toml tables.csv --trace huge_trace.csv -o page.html", 2, "huge_trace.csv line 2: has no whole number of 64 bits at its begin and at its end"),
    ("report net.toml tables.csv --limits huge_limits.csv -o page.html", 2, "huge_limits.csv line 1: the limit has 5,000 digits, and may have 100"),
    ("bounds huge.toml", 2, "huge.toml line 1: is no TOML: 111111111111111111111111111111.. of 5,000 characters does not fit 64 signed bits: it must be from -2^63 to 2^63 - 1"),
    ("bounds deep.toml", 2, "deep.toml line 1: is no TOML: lists and tables are more than 80 deep in one another"),
    # Limits.
    ("report net.toml tables.csv --limits empty_limits.csv -o page.html", 2, "empty_limits.csv: has no limits"),
    ("bounds net.toml --limits net.toml", 2, "net.toml: has no limits"),
    # Names that are not UTF-8, or have a line feed.
    ("bounds n\udcff.toml", 2, "n\\xff.toml: cannot be read: No such file or directory"),
    ("bounds a\nb", 2, "a\\nb: cannot be read: No such file or directory"),
    # Captures, what is measured, the long form, sweeps and aims.
    ("pcap net.toml trace.csv -o net.toml", 2, "net.toml: " + READ.format("net.toml")),
    ("pcap net.toml trace.csv -o hard.toml", 2, "hard.toml: " + READ.format("net.toml")),
    ("pcap net.toml trace.csv -o ./trace.csv", 2, "./trace.csv: " + READ.format("trace.csv")),
    ("pcap net.toml tables.csv -o net.pcapng", 2, "tables.csv line 1: the columns are not those of a trace: time_ns,where,vl,what,value"),
    ("pcap net.toml trace.csv -o /dev/full", 2, "/dev/full: cannot be written: No space left on device"),
    ("pcap net.toml none.csv -o net.pcapng", 2, "none.csv: cannot be read: No such file or directory"),
    ("judge net.toml none.pcap", 2, "none.pcap: cannot be read: No such file or directory"),
    ("judge net.toml DIR", 2, "DIR: cannot be read: Is a directory"),
    ("judge net.toml trace.csv", 2, "trace.csv: is no capture: it begins with 74 69 6d 65, and a pcap or pcapng file does not; Wireshark writes one by File, Save As"),
    ("judge net.toml bench.pcapng -o net.toml", 2, "net.toml: " + READ.format("net.toml")),
    ("judge net.toml bench.pcapng -o bench.pcapng", 2, "bench.pcapng: " + READ.format("bench.pcapng")),
    ("judge net.toml bench.pcapng -o new.html --junit new.html", 2, "new.html: " + TWICE.format("new.html")),
    ("judge net.toml bench.pcapng --tap eth0=SW1", 2, "net.toml: SW1 is a switch, and a tap is a link of it and a direction: ES1>SW1, ES2>SW1, .."),
    ("judge net.toml bench.pcapng --tap eth1=ES1>SW1", 2, "bench.pcapng: has no interface eth1, which --tap names: it has eth0"),
    (
        "judge net.toml bench.pcapng", 2,
        "bench.pcapng: no interface of it (eth0) has the name of a line or an end system of net.toml: name the link and the direction of each, as --tap eth0=\"SW1>ES2\"",
    ),
    ("judge net.toml bench.pcapng --tap eth0=ES1 --bounds tables.csv", 2, "tables.csv line 1: the columns are not those of bounds: bound_ns is not among them"),
    ("second-opinion net.toml --hops link.toml", 2, "link.toml: " + READ.format("net.toml")),
    ("second-opinion net.toml --trace new.csv --hops ./new.csv", 2, "./new.csv: would be written over new.csv, which is written too; nothing is written"),
    ("long-form net.toml tables.csv -o hard.toml", 2, "hard.toml: " + READ.format("net.toml")),
    ("long-form net.toml tables.csv >> tables.csv", 2, "standard output: " + READ.format("tables.csv")),
    ("long-form net.toml trace.csv", 2, "trace.csv line 1: the columns are not those of tables: table,vl,where,cause,count,least_ns,greatest_ns,sum_ns"),
    ("campaign net.toml --set vl.1.depth=1,2 -o LINKED", 2, "LINKED/merged.csv: " + READ.format("net.toml")),
    ("campaign net.toml --aim 1 -o LINKED", 2, "LINKED/merged.csv: " + READ.format("net.toml")),
    ("campaign net.toml --aim 2 -o DIR --replace", 2, "net.toml line 30: --aim 2: there is no such virtual link"),
    ("report net.toml tables.csv --hops huge_hops.csv -o new.html", 2, "huge_hops.csv line 2: count has 5,000 digits, and may have 100"),
    ("report net.toml tables.csv --hops huge_vl.csv -o new.html", 2, "huge_vl.csv line 2: the virtual link has 5,000 digits, and may have 100"),
    ("bounds long.toml -o new.csv", 2, "long.toml line 20: link 1 a names " + "x" * 60 + ".. of 5,000 characters, which is no node"),
    # Two outputs of one name, however it is spelled; and what cannot be written is said before the first run, which the program
    # here would show by a file. HAS_A_FOLDER has one called merged.csv.
    ("second-opinion net.toml --trace new.csv --hops new.csv", 2, "new.csv: " + TWICE.format("new.csv")),
    ("second-opinion net.toml --trace one.csv --hops DOUBLE/merged.csv", 2, "DOUBLE/merged.csv: " + TWICE.format("one.csv")),
    ("second-opinion net.toml --trace hard.csv --hops tables.csv", 2, "tables.csv: " + TWICE.format("hard.csv")),
    ("report net.toml tables.csv --limits limits.csv --junit page.html -o page.html", 2, "page.html: " + TWICE.format("page.html")),
    ("report net.toml tables.csv --limits limits.csv --junit ./page.html -o page.html", 2, "./page.html: " + TWICE.format("page.html")),
    ("bounds net.toml -o new.csv --limits limits.csv --junit new.csv", 2, "new.csv: " + TWICE.format("new.csv")),
    ("campaign net.toml --seeds 1 -o /proc/self", 2, "/proc/self/campaign.json: cannot be written: No such file or directory"),
    ("campaign net.toml --seeds 1 -o limits.csv/runs", 2, "limits.csv/runs: cannot be made: Not a directory"),
    ("campaign net.toml --seeds 1 -o HAS_A_FOLDER --replace", 2, "HAS_A_FOLDER/merged.csv: cannot be written: Is a directory"),
    ("campaign net.toml --seeds 1 -o DIR", 2, "DIR: has files of an earlier campaign: merged.csv, seed-42.toml. Name another folder, or --replace them"),
    ("second-opinion huge_run.toml --trace none/trace.csv", 2, "none/trace.csv: cannot be written: No such file or directory"),
    # Standard output is no file.
    ("report net.toml tables.csv -o -", 2, "-: " + NO_FILE),
    ("pcap net.toml trace.csv -o -", 2, "-: " + NO_FILE),
    ("second-opinion net.toml --trace -", 2, "-: " + NO_FILE),
    ("campaign net.toml --seeds 1 -o -", 2, "-: is no folder: what a campaign writes are files, and ./- is a folder of this name"),
    # Outages after the end of the run, lines of Windows, and records of earlier versions.
    ("campaign net.toml --each-outage 2000001 -o NEW", 2, "net.toml line 1: --each-outage 2000001: the run ends before that, at 2000000 ns"),
    ("report net.toml windows.csv -o page.html", 2, "windows.csv line 1: " + WINDOWS),
    ("report net.toml tables.csv --trace windows_trace.csv -o page.html", 2, "windows_trace.csv line 1: " + WINDOWS),
    ("pcap net.toml windows_trace.csv -o new.pcapng", 2, "windows_trace.csv line 1: " + WINDOWS),
    ("report net.toml EARLIER -o page.html", 2, "EARLIER/campaign.json: is no record of a campaign: it has no files. Run the campaign anew: an earlier version wrote this"),
    ("report net.toml NO_SUM -o page.html", 2, "NO_SUM/campaign.json: is no record of a campaign: program is \"{{'name': 'afdxsim', 'proved': True}}\""),
    ("benchmark /bin/true", 2, "/bin/true: cannot be run, or is no afdxsim: name the built program"),
    ("bounds net.toml --program /bin/true", 2, "/bin/true: is no afdxsim"),
    ("bounds net.toml --proved tables.csv", 2, "tables.csv line 1: begins with 'table,vl,where,cause,count,lea'.. of 54 characters in place of kind,of,where,network_ns,wait_ns,bound_ns: give what `afdxsim bounds NET` prints"),
    ("bounds net.toml --limits same.toml", 2, "same.toml: has no limits"),
    ("bounds net.toml --limits far.toml", 2, "far.toml line 31: 'ES9' is no destination of virtual link 1 in net.toml"),
    ("long-form net.toml wide.csv", 2, "wide.csv line 2: count has 5,000 digits, and may have 100"),
    ("report net.toml WRONG -o page.html", 2, "WRONG/campaign.json: is no record of a campaign: program is \"{{'name': 1}}\""),
    (
        "table misspelt.csv -o new.toml", 1,
        "misspelt.csv line 1: the column 'prioritty' is not known, and priority may be meant: write it so, or say what it is by --column "
        "'prioritty=priority', or 'prioritty=-' where it is to be passed over",
    ),
    ("table two.csv net.csv --column Box=source -o new.toml", 2, "two.csv: cannot be read: No such file or directory"),
    ("table net.csv --column Box=source -o new.toml", 1, "net.csv: no table has a column 'box' that --column can make 'source'"),
    ("table twofold.csv -o new.toml", 1, "twofold.csv line 3: virtual link 1 is in line 2 too, and bag_ms is '16' here and '8' there"),
    ("table broken.xlsx -o new.toml", 2, "broken.xlsx: is no workbook that can be read: BadZipFile: File is not a zip file"),
]


def lines_before(line):
    return 1 if line.startswith("large-network") else 0


def tree_of(folder):
    """All that is in a folder: the bytes of each file, where each link leads, and each mode."""
    found = {}
    for top, folders, names in os.walk(folder):
        for name in folders + names:
            path = os.path.join(top, name)
            what = os.readlink(path) if os.path.islink(path) else None
            if what is None and os.path.isfile(path):
                with open(path, "rb") as file:
                    what = file.read()
            found[os.path.relpath(path, folder)] = what, os.lstat(path).st_mode
    return found


def heed_signals():
    """What is started heeds each signal, also where the tests were started in the background, or by nohup."""
    for number in (signal.SIGINT, signal.SIGTERM, signal.SIGHUP):
        signal.signal(number, signal.SIG_DFL)


class Rows(unittest.TestCase):
    def setUp(self):
        folder = tempfile.TemporaryDirectory()
        self.addCleanup(folder.cleanup)
        self.folder = folder.name
        with open(N1, encoding="utf-8") as file:
            net = file.read()
        bounds = subprocess.run([*tool_words("bounds"), N1], capture_output=True, text=True).stdout
        table = subprocess.run([*tool_words("table"), "--back", N1], capture_output=True, text=True)
        program = STAND_IN.format(python=sys.executable, tools=TOOLS, lines="")
        texts = FILES | {"net.toml": net, "DIR/seed-42.toml": net, "net.csv": table.stdout, "afdxsim": program}
        texts["bounds.csv"] = bounds
        texts["same.toml"] = "# the same\n" + net
        texts["other.toml"] = net.replace("mbit = 100", "mbit = 10").replace("= 64", "= 100").replace("seed = 42", "seed = 1")
        texts["twice.toml"] = net.replace("[[vl]]", '[[outage]]\nfrom = "ES1"\nto = "SW1"\nfrom_ns = 0\nto_ns = 9000\n[[vl]]')
        self.sums = {name: hashlib.sha256(texts[name + ".toml"].encode()).hexdigest()[:16] for name in ("net", "same")}
        head, none = texts["tables.csv"].split("\n")[0] + "\n", "latency,1,ES2,,0,0,0,0\n"
        texts["lost.csv"] = head + none + "dropped,1,ES1>SW1,outage,1,,,\n"
        texts["long.csv"] = head + none + "dropped,1,SW1,too_long,1,,,\n"
        texts["sized.csv"] = "time_ns,where,vl,what,value\n5760,ES1>SW1,1,outage,65\n"
        huge = "1" * 5000
        texts["huge.csv"] = head + f"latency,1,ES2,,{huge},1,1,1\n"
        texts["huge_trace.csv"] = f"time_ns,where,vl,what,value\n{huge},ES2,1,delivered,1\n"
        hops = "kind,vl,where,count,least,greatest,sum\ndelay,{},ES1>SW1,{},1,1,1\n"
        texts |= {"huge_hops.csv": hops.format(1, huge), "huge_vl.csv": hops.format(huge, 1)}
        texts["long.toml"] = net.replace('a = "ES1"', f'a = "{"x" * 5000}"')
        texts["huge_limits.csv"] = f"1,ES2,{huge}\n"
        vls = "id,source,destinations,bag_ms,smax,a"
        texts["misspelt.csv"] = f"{vls},prioritty\n1,ES1,ES2,8,64,ES1 SW1 ES2,high\n\nname,net\nSW1,A\n\na,b\nES1,SW1\nES2,SW1\n"
        texts["twofold.csv"] = f"{vls}\n1,ES1,ES2,8,64,ES1 SW1 ES2\n1,ES1,ES2,16,64,ES1 SW1 ES2\n\nname,net\nSW1,A\n\na,b\nES1,SW1\nES2,SW1\n"
        texts["empty_limits.csv"] = "# none\n"
        texts["huge.toml"] = f"until_ns = {huge}\nseed = 1\n"
        texts["deep.toml"] = "until_ns = " + "[" * 100_000
        for name in ("DIR", "LINKED", "DOUBLE", "RUNS", "BAD", "DEEP", "LACKS", "EARLIER", "WRONG", "NO_SUM", "HAS_A_FOLDER", "HAS_A_FOLDER/merged.csv"):
            os.mkdir(self.path(name))
        texts |= {"BAD/campaign.json": "", "DEEP/campaign.json": "[" * 100_000, "LACKS/campaign.json": "{}"}
        record = {"description": "", "program": "afdxsim 0.1.0", "until_ns": 1, "first_seed": 1, "seeds": 1, "offsets": False, "words": []}
        texts |= {"EARLIER/campaign.json": json.dumps(record), "WRONG/campaign.json": json.dumps(record | {"program": {"name": 1}, "files": {}})}
        texts |= {"NO_SUM/campaign.json": json.dumps(record | {"program": {"name": "afdxsim", "proved": True}, "files": {}})}
        texts |= {f"{name}/merged.csv": "" for name in ("BAD", "DEEP", "LACKS", "EARLIER", "WRONG", "NO_SUM")}
        texts |= {"wide.csv": texts["huge.csv"], "far.toml": net.replace("[[vl]]", "[[vl]]\n# limit_us 5 at ES9", 1)}
        texts |= {"windows.csv": texts["tables.csv"].replace("\n", "\r\n"), "windows_trace.csv": texts["trace.csv"].replace("\n", "\r\n")}
        # What would take minutes, where it began.
        texts["huge_run.toml"] = net.replace("until_ns = 2000000", "until_ns = 10000000000").replace("period_ns = 1000000000000", "period_ns = 1000")
        for name, text in texts.items():
            with open(self.path(name), "w", encoding="utf-8", newline="") as out:
                out.write(text)
        os.link(self.path("tables.csv"), self.path("hard.csv"))
        os.chmod(self.path("afdxsim"), 0o755)
        os.symlink("net.toml", self.path("link.toml"))
        os.link(self.path("net.toml"), self.path("hard.toml"))
        os.symlink("../net.toml", self.path("LINKED/merged.csv"))
        for name in ("merged", "greatest"):
            os.symlink("../one.csv", self.path(f"DOUBLE/{name}.csv"))

    def path(self, name):
        return os.path.join(self.folder, name)

    def call(self, line):
        """The status of a call, what it prints, and what it says."""
        line, _, out = line.partition(" >")
        tool, *words = line.split(" ")
        command = [*tool_words(tool), *words]
        if tool == "campaign":
            command += ["--program", self.path("afdxsim")]
        closes = (lambda: os.close(1)) if out == "&-" else None
        with contextlib.ExitStack() as stack:
            to = stack.enter_context(open(os.path.join(self.folder, out[2:]), "ab")) if out.startswith("> ") else subprocess.PIPE
            run = subprocess.run(command, cwd=self.folder, stdin=subprocess.DEVNULL, stdout=to, stderr=subprocess.PIPE, preexec_fn=closes)
        return run.returncode, (run.stdout or b"").decode(), run.stderr.decode()

    def test_rows(self):
        self.assertEqual(self.call("campaign net.toml --seeds 3 -o RUNS")[0], 0)
        shutil.copy(self.path("RUNS/merged.csv"), self.path("copy.csv"))
        before = tree_of(self.folder)
        for line, status, said in ROWS:
            with self.subTest(line):
                name = f"afdx {line.split(' ')[0]}: "
                found = self.call(line)
                # What large_network prints of its network goes before.
                printed = found[2].splitlines()[lines_before(line) :]
                # The last line of `table` is the receipt.
                printed = printed[:-1] if line.startswith("table ") and status == 1 else printed
                self.assertEqual((found[0], printed), (status, [name + said.format(**self.sums)]))
                self.assertEqual(found[1], "")
                self.assertEqual(tree_of(self.folder), before)


class OfTheCommand(Rows):
    """The one command: each row is its words, the status, and what it prints or says."""

    test_rows = None
    ROWS = [
        ("page net.toml -o page.html --trace trace.csv", 2, "page: error: --trace is of tables that are there already, and the page makes its own: name TABLES behind NET"),
        ("page net.toml -o page.html --made-by me", 2, "page: error: --made-by is of tables that are there already, and the page makes its own: name TABLES behind NET"),
        ("page net.toml -o page.html --limits net.toml --by second-opinion", 2, "afdx: net.toml: has no limits\n"),
        ("large-network --seed ٣", 2, "argument --seed: invalid whole number value: '٣'"),
        ("page net.toml -o page.html --by nobody", 2, "--by is proved, try or second-opinion, and not 'nobody'"),
        ("check net.toml same.toml --by second-opinion", 0, "net.toml: ok: "), ("check net.toml same.toml --by second-opinion", 0, "same.toml: ok: "),
        ("check net.toml lacks.toml --by second-opinion", 4, "lacks.toml: afdxsim: cannot read lacks.toml"),
        ("check net.toml --jsn --by second-opinion", 2, "check has no option --jsn: usage: afdx check NET.. [--json]"),
        ("check - - --by second-opinion", 2, "standard input can be read once, and is named twice"),
        ("check net.toml huge.toml --json --by second-opinion", 3, '{"file": "huge.toml", "accepted": false, "status": 3, "text": "afdxsim: description: '),
        ("table misspelt.csv --json", 2, "--json prints on standard output, so the description needs a name: -o FILE"),
        ("table misspelt.csv --json -o new.toml", 1, '{"file": "misspelt.csv", "sheet": null, "line": 1, "level": "fault", "text": '),
        ("table --back net.toml --json", 2, "--column, --skip, --receipt and --json are about tables that are read"),
        ("page net.toml -o page.html --late late.csv --by second-opinion", 2, "--late is of the worst frames of limits, and none are given: --limits FILE"),
        ("report net.toml tables.csv -o page.html --late late.csv", 2, "--late is of the worst frames of limits, and none are given: --limits FILE"),
        ("campaign net.toml --seeds 2 --part 3/3 -o NEW --by second-opinion", 2, "--part 3/3: 2 seeds have no 3 parts"),
        ("campaign net.toml --merge DIR -o NEW", 2, "DIR: has no campaign.json"),
        ("campaign net.toml --merge NO_SUM -o NEW", 2, "NO_SUM/campaign.json: is no record of a campaign: program is "),
        ("campaign net.toml --merge DIR --seeds 3 -o NEW", 2, "--merge makes no runs, and takes no --seeds: the parts have theirs"),
        ("outages net.toml --part 1/2 -o NEW --by second-opinion", 2, "--part is of runs over seeds, and not with --each-outage"),
        ("check --by second-opinion", 2, "check of which description? usage: afdx check NET.. [--json]"),
        ("page --version", 0, "afdxsim "), ("seq net.toml --version", 0, "afdxsim "), ("--version", 0, "afdxsim "),
        ("outages --help", 0, "usage: afdx outages "),
    ]

    def test_words_of_the_command(self):
        before = tree_of(self.folder)
        for line, status, said in self.ROWS:
            with self.subTest(line):
                run = subprocess.run([sys.executable, "-m", "afdx", *line.split()], cwd=self.folder, capture_output=True, text=True)
                self.assertEqual(run.returncode, status, run.stderr)
                self.assertIn(said, run.stdout + run.stderr)
                self.assertNotIn("Traceback", run.stderr)
                self.assertEqual(tree_of(self.folder), before)

    def test_outages_have_a_help_of_their_own(self):
        said = subprocess.run([sys.executable, "-m", "afdx", "outages", "--help"], capture_output=True, text=True).stdout
        self.assertNotIn("--set", said)
        self.assertNotIn("--aim", said)


class WhatStandsThere(Rows):
    """-o keeps what stands there."""

    test_rows = None

    def test_a_link_stays_a_link(self):
        with open(self.path("page.html"), "w") as out:
            out.write("before")
        os.chmod(self.path("page.html"), 0o640)
        os.symlink("page.html", self.path("by.html"))
        os.symlink("later.html", self.path("to_none.html"))
        for name, real, mode in (("by.html", "page.html", 0o640), ("to_none.html", "later.html", 0o644)):
            self.assertEqual(self.call(f"report net.toml tables.csv -o {name}"), (0, "", ""))
            self.assertTrue(os.path.islink(self.path(name)))
            with open(self.path(real)) as file:
                self.assertTrue(file.read().startswith("<!DOCTYPE html>"))
            self.assertEqual(os.stat(self.path(real)).st_mode & 0o777, mode)

    def test_a_file_of_two_names_stays_one_file(self):
        for name in ("one.html", "two.html"):
            with open(self.path("one.html"), "w") as out:
                out.write("x" * 10**6)
        os.link(self.path("one.html"), self.path("also.html"))
        self.assertEqual(self.call("report net.toml tables.csv -o one.html"), (0, "", ""))
        self.assertTrue(os.path.samefile(self.path("one.html"), self.path("also.html")))
        with open(self.path("also.html")) as file:
            self.assertTrue(file.read().endswith("</html>\n"))

    def test_a_pipe_is_written_into(self):
        os.mkfifo(self.path("pipe"))
        found = []

        def read():
            with open(self.path("pipe")) as file:
                found.append(file.read())

        reader = threading.Thread(target=read)
        reader.start()
        self.assertEqual(self.call("bounds net.toml -o pipe"), (0, "", ""))
        reader.join()
        with open(self.path("bounds.csv")) as file:
            self.assertEqual(found, [file.read()])
        self.assertEqual(os.listdir(self.folder).count("pipe"), 1)

    def test_a_device_stays(self):
        before = os.stat("/dev/null").st_mode
        for line in ("bounds net.toml -o /dev/null", "report net.toml tables.csv -o /dev/null"):
            self.assertEqual(self.call(line), (0, "", ""))
        self.assertEqual(os.stat("/dev/null").st_mode, before)

    def test_what_is_read_by_two_names_may_be(self):
        """Files that are only read may be named twice, and what is written may be that of an earlier call."""
        for _ in "12":
            self.assertEqual(self.call("report net.toml tables.csv --against tables.csv -o page.html"), (0, "", ""))


class Ends(Rows):
    """Whatever ends a tool, it says one line, and leaves all as it was."""

    test_rows = None

    def started(self, *words, **more):
        """A tool, with a folder of its own for what it keeps meanwhile."""
        tool, *words = words
        os.makedirs(self.path("tmp"), exist_ok=True)
        command = [*tool_words(tool), *words]
        environment = os.environ | {"TMPDIR": self.path("tmp")}
        pipe = subprocess.PIPE
        return subprocess.Popen(command, cwd=self.folder, stdout=pipe, stderr=pipe, text=True, env=environment, **more)

    def test_signals(self):
        """Each tool is held by a description that comes by a pipe."""
        os.mkfifo(self.path("pipe"))
        before = tree_of(self.folder)
        for words in (
            "report pipe tables.csv -o page.html", "report net.toml pipe -o page.html", "bounds pipe -o bounds.csv", "explain pipe",
            "table pipe -o net.csv", "second-opinion pipe --trace trace.csv", "make-journal pipe", "long-form net.toml pipe -o long.json",
            "pcap net.toml pipe -o net.pcapng", "report net.toml tables.csv --trace pipe -o page.html",
            "campaign net.toml --each-outage --limits pipe -o DIR --program ./afdxsim",
            "campaign pipe --seeds 3 -o DIR --program afdxsim",
        ):
            for number, status, said in (
                (signal.SIGINT, 130, "interrupted"),
                (signal.SIGTERM, 143, "ended by SIGTERM"),
                (signal.SIGHUP, 129, "ended by SIGHUP"),
            ):
                with self.subTest(words, signal=number):
                    run = self.started(*words.split(), preexec_fn=heed_signals)
                    with open(self.path("pipe"), "w"):
                        run.send_signal(number)
                        out, printed = run.communicate(timeout=PATIENCE)
                    self.assertEqual((run.returncode, out, printed), (status, "", f"afdx {words.split()[0]}: {said}\n"))
                    self.assertEqual(os.listdir(self.path("tmp")), [])
                    os.rmdir(self.path("tmp"))
                    self.assertEqual(tree_of(self.folder), before)

    def test_a_signal_that_is_passed_over(self):
        """As that of a terminal that is closed, where the tool was started by nohup."""
        os.mkfifo(self.path("pipe"))
        run = self.started("explain", "pipe", preexec_fn=lambda: signal.signal(signal.SIGHUP, signal.SIG_IGN))
        with open(self.path("pipe"), "w") as out:
            run.send_signal(signal.SIGHUP)
            with open(self.path("net.toml")) as file:
                out.write(file.read())
        self.assertEqual(run.communicate(timeout=PATIENCE), ("pipe: accepted\n", ""))
        self.assertEqual(run.returncode, 0)

    def test_a_file_that_finds_no_room(self):
        """An earlier one stays, of one name or of two."""
        small = lambda: resource.setrlimit(resource.RLIMIT_FSIZE, (10_000, 10_000))
        for name in ("page.html", "also.html"):
            with open(self.path(name), "w") as out:
                out.write("before")
        os.link(self.path("also.html"), self.path("again.html"))
        before = tree_of(self.folder)
        for name in ("page.html", "also.html", "none.html"):
            run = self.started("report", "net.toml", "tables.csv", "-o", name, preexec_fn=small)
            printed = f"afdx report: {name}: cannot be written: File too large\n"
            self.assertEqual((*run.communicate(timeout=PATIENCE), run.returncode), ("", printed, 2))
            os.rmdir(self.path("tmp"))
            self.assertEqual(tree_of(self.folder), before)

    def test_refused_memory(self):
        """Of a file that is larger than what is given."""
        with open(self.path("large"), "w") as out:
            out.truncate(600_000_000)
        little = lambda: resource.setrlimit(resource.RLIMIT_AS, (400_000_000, 400_000_000))
        for words in ("report large tables.csv -o page.html", "bounds large", "explain large", "table large", "report net.toml tables.csv --trace large -o page.html"):
            run = self.started(*words.split(), preexec_fn=little)
            self.assertEqual((*run.communicate(timeout=PATIENCE), run.returncode), ("", f"afdx {words.split()[0]}: out of memory\n", 2))

    def test_a_closed_pipe(self):
        """What comes behind `head` is reported in one line."""
        for words in (
            "bounds net.toml", "explain net.toml", "second-opinion net.toml", "make-journal net.toml", "table --back net.toml",
            "long-form net.toml tables.csv", "report net.toml tables.csv --limits limits.csv -o /dev/null", "bounds net.toml --limits limits.csv",
        ):
            read, write = os.pipe()
            os.close(read)
            tool, *rest = words.split()
            run = subprocess.run(
                [*tool_words(tool), *rest], cwd=self.folder, stdout=write, stderr=subprocess.PIPE
            )
            os.close(write)
            said = f"afdx {tool}: standard output: cannot be written: Broken pipe\n"
            self.assertEqual((run.returncode, run.stderr.decode()), (2, said))


    def test_a_campaign_whose_output_is_closed(self):
        """What its runs brought is kept."""
        for words, name in (("--seeds 2", "merged.csv"), ("--each-outage", "outages.csv"), ("--set vl.1.depth=1,2", "sweep.csv"), ("--aim 1", "aim.csv")):
            with self.subTest(words):
                found = self.call(f"campaign net.toml {words} -o NEW >> /dev/full")
                self.assertEqual(found, (2, "", "afdx campaign: standard output: cannot be written: No space left on device\n"))
                self.assertTrue(os.path.getsize(self.path(f"NEW/{name}")) > 20)
                shutil.rmtree(self.path("NEW"))


class Writer(unittest.TestCase):
    """The one writer, where the system has no files without names."""

    def test_what_ends_it_leaves_nothing(self):
        for ended in (files.Interrupted(signal.SIGTERM), MemoryError(), OSError(28, "No space left on device")):
            with tempfile.TemporaryDirectory() as folder, mock.patch.object(os, "O_TMPFILE", None):
                path = os.path.join(folder, "it")
                files.write_whole(path, "before")
                with mock.patch.object(os, "replace", side_effect=ended):
                    with self.assertRaises((type(ended), files.Fault)):
                        files.write_whole(path, "after")
                self.assertEqual(os.listdir(folder), ["it"])
                with open(path) as file:
                    self.assertEqual(file.read(), "before")
                files.write_whole(path, "after")
                self.assertEqual(os.listdir(folder), ["it"])


if __name__ == "__main__":
    unittest.main()
