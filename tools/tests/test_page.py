import collections
import json
import os
import re
import shutil
import struct
import subprocess
import sys
import zlib

from tool import TOP, ToolTest

sys.path.insert(0, os.path.join(TOP, "python"))
import coupling
import layout
import qasm
import qroute
import swaps

BUILT = os.path.join(TOP, "out/qroute")
BROWSER = next((it for it in map(shutil.which, ("chromium", "chromium-browser", "google-chrome")) if it), None)
HEAD = 'OPENQASM 2.0;\ninclude "qelib1.inc";\n'
RED, BLUE = (207, 34, 46), (9, 105, 218)


def pixels(path):
    """Width, height and the rows of a picture in PNG, each pixel three bytes or four, as so many bytes."""
    with open(path, "rb") as file:
        data = file.read()
    at, packed = 8, b""
    while at < len(data):
        length, kind = struct.unpack(">I4s", data[at : at + 8])
        if kind == b"IHDR":
            width, height, depth, colour = struct.unpack(">IIBB", data[at + 8 : at + 18])
        if kind == b"IDAT":
            packed += data[at + 8 : at + 8 + length]
        at += 12 + length
    assert depth == 8 and colour in (2, 6)
    size = 3 if colour == 2 else 4
    return width, height, size, unfiltered(zlib.decompress(packed), width * size, size)


def unfiltered(data, wide, size):
    rows, above = [], bytes(wide)
    for at in range(0, len(data), wide + 1):
        kind, row = data[at], bytearray(data[at + 1 : at + 1 + wide])
        for i in range(wide) if kind else ():
            left, up = row[i - size] if i >= size else 0, above[i]
            corner = above[i - size] if i >= size else 0
            row[i] = (row[i] + predicted(kind, left, up, corner)) & 255
        rows.append(row)
        above = row
    return rows


def predicted(kind, left, up, corner):
    if kind < 4:
        return (0, left, up, (left + up) // 2)[kind]
    near = left + up - corner
    return min((abs(near - left), 0, left), (abs(near - up), 1, up), (abs(near - corner), 2, corner))[2]


class Swaps(ToolTest):
    def steps(self, text):
        return qasm.read(f"{HEAD}qreg q[4];\n{text}").steps

    def test_found(self):
        plain = "cx q[0],q[1];\ncx q[1],q[0];\nh q[2];\ncx q[0],q[1];\n"
        turned = "cx q[2],q[3];\nh q[2];\nh q[3];\ncx q[2],q[3];\nh q[3];\nh q[2];\ncx q[2],q[3];\n"
        between = "cx q[0],q[1];\ncx q[1],q[0];\nt q[1];\ncx q[0],q[1];\n"
        other = "cx q[0],q[1];\ncx q[1],q[2];\ncx q[0],q[1];\n"
        for text, wanted in ((plain, [(0, 1)]), (turned, [(2, 3)]), (between, []), (other, []), (plain + turned, [(0, 1), (2, 3)])):
            self.assertEqual([it.pair for it in swaps.found(self.steps(text))], wanted, text)

    def test_told(self):
        steps = self.steps("cx q[0],q[1];\ncx q[1],q[0];\ncx q[0],q[1];\n")
        told = {"swaps": 1, "initial": [0, 1, 2, 3], "final": [1, 0, 2, 3]}
        self.assertEqual(len(swaps.told(steps, told)), 1)
        self.assertIsNone(swaps.told(steps, told | {"final": [0, 1, 2, 3]}))
        self.assertIsNone(swaps.told(steps, told | {"swaps": 2}))


class Places(ToolTest):
    def test_devices(self):
        """No two qubits are on one place, and edges are short: of devices of grids and hexagons all have the length 1."""
        for name in qroute.Device.names():
            path = os.path.join(TOP, f"devices/{name}.toml")
            size, edges = coupling.read(path)
            places = layout.places_of(path, size, edges)
            apart = min((abs(a[0] - b[0]) + abs(a[1] - b[1]) for i, a in enumerate(places) for b in places[:i]), default=1)
            self.assertGreater(apart, 0.5, name)
            lengths = [sum((one - other) ** 2 for one, other in zip(places[a], places[b])) ** 0.5 for a, b in coupling.near(edges)]
            self.assertLess(max(lengths), 1.5, name)
            self.assertEqual((min(x for x, _ in places), min(y for _, y in places)), (0, 0))

    def test_without_places(self):
        """The best of several starts unfolds a grid."""
        edges = [(5 * r + c, 5 * r + c + 1) for r in range(5) for c in range(4)] + [(5 * r + c, 5 * r + c + 5) for r in range(4) for c in range(5)]
        places = layout.laid_out(25, edges)
        lengths = [sum((one - other) ** 2 for one, other in zip(places[a], places[b])) ** 0.5 for a, b in edges]
        self.assertLess(max(lengths) / min(lengths), 1.6)

    def test_places_that_cannot_be(self):
        for places in ("[[0, 0]]", "[[0, 0], [0, 0]]", '[[0, 0], ["1", 0]]', "3", "[[0, 0], [1]]", "[[0, 0], [inf, 0]]"):
            path = self.file("d.toml", f"qubits = 2\nedges = [[0, 1]]\nplaces = {places}\n")
            with self.assertRaises(coupling.NoDevice):
                layout.places_of(path, 2, [(0, 1)])


class OfAProgram(ToolTest):
    def setUp(self):
        super().setUp()
        if not os.access(os.environ.get("QROUTE", BUILT), os.X_OK):
            self.skipTest("there is no built program")

    def made(self, text, name, **more):
        """The page of a program on a device, and what became of it."""
        found = qroute.route(text, qroute.Device.named(name), **more)
        source, target = self.file("source.qasm", text), self.file("target.qasm", found.text)
        report = self.file("report", json.dumps(found.report) + "\n")
        page = os.path.join(self.room, f"{name}.html")
        device = os.path.join(TOP, f"devices/{name}.toml")
        words = ["page", source, target, "--report", report, "--device", device, "-o", page]
        self.assertEqual(self.run_tool(*words), (0, "", ""))
        return page, found

    def data(self, page):
        with open(page, encoding="utf-8") as file:
            text = file.read()
        return text, json.loads(re.search(r"const D = (.*);\n", text)[1])


class Page(OfAProgram):
    def test_what_it_has(self):
        text = HEAD + "qreg mine[3];\ncreg c[1];\nccx mine[0],mine[1],mine[2];\nrz(0.1) mine[1];\ncx mine[0],mine[2];\nmeasure mine[2] -> c[0];\n"
        page, found = self.made(text, "line_5", any_gates=True)
        text, data = self.data(page)
        self.assertTrue(data["moves"])
        kinds = [kind for kind, _, _ in data["moments"]]
        self.assertEqual((kinds.count("swap"), kinds.count("other"), kinds.count("measure")), (found.swaps, 1, 1))
        self.assertEqual(kinds.count("cx") + 3 * found.swaps, found.cx_after)
        self.assertEqual((data["wires"], data["final"]), ([f"mine[{i}]" for i in range(3)], list(found.final[:3])))
        self.assertIn("Here 1 statement was put back.", text)
        self.assertIn(f"<tr><th>CNOTs<td>7<td>{found.cx_after}", text)
        self.assertIsNone(re.search(r"(?:src|href)\s*=|url\(|@import|fetch\(", text))
        self.assertEqual(re.findall(r"https?://[^\"]*", text), ["http://www.w3.org/2000/svg"])

    def test_opaque_gates_are_put_back(self):
        page, _ = self.made(HEAD + "opaque wait a; qreg q[1]; t q[0]; wait q[0];", "line_5", any_gates=True)
        text, data = self.data(page)
        self.assertIn("Here 1 statement was put back.", text)
        self.assertEqual([kind for kind, _, _ in data["moments"]], ["gate", "other"])

    def test_what_is_proved(self):
        """The plain sentence only for a source that `qroute` by itself takes, and a target that it writes."""
        head = HEAD + "qreg q[2]; creg c[1]; "
        plain, whole = "Proved: the written program is the unitary of the source", "Proved, part by part: the CNOTs"
        for text, said, count in (
            ("h q[0]; cx q[0],q[1]; measure q[0] -> c[0];", plain, None),
            ("h q[0]; measure q[0] -> c[0]; h q[0]; measure q[0] -> c[0];", whole, 1),
            ("s q[0]; t q[0];", plain, None),
            ("h q[0]; measure q[0] -> c[0]; h q[0];", whole, 1),
            ("measure q[0] -> c[0]; measure q[1] -> c[0];", whole, 1),
            ("measure q[0] -> c[0]; if(c==1) h q[1]; reset q[0];", whole, 3),
            ("rz(0.7853981633) q[0]; cx q[0],q[1];", whole, None),
            ("rzz(pi/2) q[0],q[1];", whole, None),
            ("rx(0.1) q[0]; cx q[0],q[1]; barrier q; t q[0];", whole, 1),
        ):
            page, _ = self.made(head + text, "line_5", any_gates=True)
            found = self.data(page)[0]
            self.assertEqual([it for it in (plain, whole) if it in found], [said], text)
            self.assertEqual(re.findall(r"Here (\d+) statements? w", found), [] if count is None else [str(count)], text)

    def test_names_are_no_markup(self):
        page, _ = self.made(HEAD + "qreg q[1];\nh q[0];\n", "line_5")
        os.rename(os.path.join(self.room, "source.qasm"), os.path.join(self.room, "<b>.qasm"))
        words = [os.path.join(self.room, "<b>.qasm"), os.path.join(self.room, "target.qasm"), "--report", os.path.join(self.room, "report")]
        self.assertEqual(self.run_tool("page", *words, "--device", os.path.join(TOP, "devices/line_5.toml"), "-o", page)[0], 0)
        self.assertIn("<title>&lt;b&gt;.qasm on line_5</title>", self.data(page)[0])

    def test_what_does_not_fit(self):
        page, _ = self.made(HEAD + "qreg q[1];\nh q[0];\n", "line_5")
        names = {it: os.path.join(self.room, it) for it in ("source.qasm", "target.qasm", "report")}
        device = os.path.join(TOP, "devices/ring_8.toml")
        words = ["page", names["source.qasm"], names["target.qasm"], "--report", names["report"], "--device", device, "-o", page]
        says = f"page: {device} has 8 qubits, and the report tells of 5\n"
        os.remove(page)
        self.assertEqual(self.run_tool(*words), (1, "", says))
        broken = self.file("broken.qasm", HEAD + "qreg q[1];\nh q[0]\n")
        words[1] = broken
        self.assertEqual(self.run_tool(*words), (1, "", f"page: {broken}:5:1: the text ends where ; is wanted\n"))
        words[1] = broken = self.file("broken.qasm", HEAD + "gate g(t) a { rx(1/t) a; }\nqreg q[1];\ng(0) q[0];\n")
        self.assertEqual(self.run_tool(*words), (1, "", f"page: {broken}:5:1: an angle that has no value\n"))
        self.assertFalse(os.path.exists(page))

    def test_reports_that_cannot_be(self):
        page, found = self.made(HEAD + "qreg q[1];\nh q[0];\n", "line_5")
        words = ["page", *(os.path.join(self.room, it) for it in ("source.qasm", "target.qasm")), "--device", os.path.join(TOP, "devices/line_5.toml")]
        for told, said in (
            ({"swaps": None}, "the report has no swaps"),
            ({"swaps": "1"}, "the report says swaps '1', which is no number"),
            ({"cost": "a"}, "the report says cost 'a', which is no number"),
        ):
            told = {key: it for key, it in (found.report | told).items() if it is not None}
            report = self.file("report", json.dumps(told) + "\n")
            self.assertEqual(self.run_tool(*words, "--report", report, "-o", page), (1, "", f"page: {report}: {said}\n"))


class InABrowser(OfAProgram):
    """The pages as Chromium shows them."""

    def setUp(self):
        super().setUp()
        if BROWSER is None:
            self.skipTest("there is no Chromium")
        empty = self.file("empty.html", "<p>Nothing.</p>\n")
        try:
            if "Nothing." not in self.run_browser("--dump-dom", f"file://{empty}", timeout=100).stdout:
                self.skipTest("Chromium shows no page here")
        except subprocess.TimeoutExpired:
            self.skipTest("Chromium takes too long here")

    def run_browser(self, *words, timeout):
        flags = ["--headless", "--no-sandbox", "--disable-gpu", "--disable-dev-shm-usage", "--hide-scrollbars", "--window-size=1320,1010"]
        flags += ["--force-device-scale-factor=0.6", "--virtual-time-budget=900", f"--user-data-dir={self.room}/profile"]
        return subprocess.run([BROWSER, *flags, *words], capture_output=True, text=True, timeout=timeout)

    def browsed(self, page, at):
        """The document at a step, once its scripts ran, and the picture of it."""
        picture = f"{page}.png"
        ran = self.run_browser("--dump-dom", f"--screenshot={picture}", f"file://{page}#{at}", timeout=300)
        self.assertEqual(ran.returncode, 0, ran.stderr)
        return ran.stdout, picture

    def test_three_devices(self):
        with open(os.path.join(TOP, "examples/adder.qasm"), encoding="utf-8") as file:
            text = file.read()
        for name in ("ibm_tokyo", "google_sycamore_54", "ibm_eagle_127"):
            page, found = self.made(text, name)
            _, data = self.data(page)
            last = len(data["moments"])
            shown, picture = self.browsed(page, last)
            self.assertEqual(len(re.findall(r'class="node', shown)), found.device, name)
            self.assertEqual(len(re.findall(r'class="edge', shown)), len(data["edges"]), name)
            self.assertIn(f"step {last} of {last}: ", shown)
            # after the last step each wire is where the report says that it ends
            moved = re.findall(r'id="wire(\d+)" style="transform: translate\(([\d.]+)px, ([\d.]+)px\)', shown)
            self.assertEqual(len(moved), found.qubits)
            for wire, x, y in moved:
                self.assertEqual([float(x), float(y)], data["places"][found.final[int(wire)]], (name, wire))
            pairs = {tuple(sorted(on)) for kind, on, _ in data["moments"] if kind in ("swap", "cx")}
            self.assertEqual(len(re.findall(r'class="bar" style="width:\d+px"', shown)), min(8, len(pairs)))
            self.look_at(picture, name, data)

    def look_at(self, picture, name, data):
        """The picture has the timeline's swaps and CNOTs, and a disc of its colour for each wire."""
        width, height, size, rows = pixels(picture)
        self.assertEqual((width, height), (792, 606))
        count = collections.Counter()
        for row in rows:
            count.update(zip(row[::size], row[1::size], row[2::size]))
        bars = sum(it[0] == "swap" for it in data["moments"])
        self.assertGreater(count[RED], 60 * bars, name)
        self.assertGreater(count[BLUE], 1000, name)
        for wire in range(len(data["wires"])):
            wanted = hsl(wire)
            found = sum(n for it, n in count.items() if max(abs(a - b) for a, b in zip(it, wanted)) <= 2)
            self.assertGreater(found, 20, (name, wire))


def hsl(wire):
    """The colour of a wire's disc, as the page makes it."""
    hue, light = (round(wire * 137.508 + 205) % 360) / 360, 0.40 if wire % 2 else 0.47
    high = light + 0.58 * min(light, 1 - light)
    low = 2 * light - high

    def part(at):
        at %= 1
        if at < 1 / 6:
            return low + (high - low) * 6 * at
        return high if at < 1 / 2 else low + (high - low) * (2 / 3 - at) * 6 if at < 2 / 3 else low

    return [round(255 * part(hue + it)) for it in (1 / 3, 0, -1 / 3)]
