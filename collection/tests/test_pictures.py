"""Parts, the network that is traced from them, and pictures."""

import json
import re
import subprocess
from fractions import Fraction
from pathlib import Path

from .. import design, flows, picture, states, strings, trace
from ..books import entries
from . import BOOK, EXAMPLES, Case, belt, blueprint, program_path

GOLDEN = Path(__file__).parent / "golden"

TAP = (EXAMPLES / "express-tap-1-to-3.json").read_text()


def traced(text):
    parts = design.read(text)
    return parts, trace.Layout(parts.parts).network()


def marked_picture():
    """A picture with each mark that there is."""

    def splitter(x, y, direction, name="splitter", **more):
        return belt(x + (direction % 4 == 0) / 2, y + (direction % 4 == 2) / 2, direction, name, **more)

    text = blueprint(
        splitter(0, 0, 0),
        splitter(3, 0, 2, "fast-splitter", output_priority="left"),
        splitter(5, 0, 4, "express-splitter", input_priority="right"),
        splitter(8, 0, 6, "turbo-splitter", output_priority="right", input_priority="left"),
        belt(0, -1, 2),
        belt(1, 1),
        {"name": "a<b>", "position": {"x": 2.5, "y": 2.5}},
    )
    found = design.read(text)
    found.strangers.append(design.Stranger(7, "substation", (14, 4), (2, 2), True))
    refused = ((((2, 2),), "no part"), (found.parts[2].cells, "<why>"))
    bare = tuple(it for it in trace.bare_ends(found.parts) if it.part != 3)
    return picture.Picture(found, marks=picture.Marks(bare, frozenset({5}), refused))


class Parts(Case):
    def test_directions_and_grids(self):
        for version, quarter in ((0, 2), (1 << 48, 2), (2 << 48, 4)):
            parts = design.read(blueprint(belt(0, 0, quarter), belt(1, 0, 3 * quarter), version=version)).parts
            self.assertEqual([it.direction for it in parts], [design.EAST, design.WEST])
        splitter = {"name": "splitter", "position": {"x": 3.5, "y": 5}}
        parts = design.read(blueprint(belt(2.5, 3.5), splitter)).parts
        self.assertEqual([it.cells for it in parts], [((2, 3),), ((2, 4), (3, 4))])

    def test_what_cannot_be_drawn_says_why(self):
        cases = {
            "[": "no JSON",
            "[]": "no blueprint",
            blueprint(): "no entities",
            '{"blueprint":{"entities":1}}': "no list",
            '{"blueprint":{"entities":[1]}}': "no entity has a position",
            blueprint({"name": "splitter"}): "no entity has a position",
            '{"blueprint":{"entities":[{"name":"splitter","position":{"x":1e400,"y":0}}]}}': "no entity has a position",
            blueprint(belt(0, 0), belt(0, 2048)): "more than 2048 tiles",
            blueprint(*(belt(x, 0) for x in range(16385))): "more than 16384",
        }
        for text, why in cases.items():
            with self.subTest(text=text[:60]), self.assertRaisesRegex(design.Unreadable, why):
                design.read(text)

    def test_what_is_no_part_is_kept_at_its_tiles(self):
        inserter = {"name": "inserter", "position": {"x": 1.5, "y": 0.5}}
        nameless, nowhere = {"name": 7, "position": {"x": -0.5, "y": 0.5}}, {"name": "splitter"}
        odd = belt(0.25, 4), belt(0.5, 5), belt(0, 6, 1), nameless, nowhere
        found = design.read(blueprint(belt(0, 0), inserter, *odd))
        told = [(it.entity, it.name, it.cells, it.stands_by) for it in found.strangers]
        names = ["inserter", *["transport-belt"] * 3, "7"]
        cells = [((1, 0),), ((0, 4),), ((0, 5), (1, 5)), ((0, 6),), ((-1, 0),)]
        self.assertEqual(told, [(*it, False) for it in zip(range(1, 6), names, cells)])

    def test_what_stands_by_has_a_size(self):
        def thing(name, x, y, direction=0):
            return {"name": name, "position": {"x": x, "y": y}, "direction": direction}

        things = thing("substation", 3, 1), thing("decider-combinator", 6, 1.5, 2), thing("decider-combinator", 8.5, 1)
        found = design.read(blueprint(belt(0, 0), *things))
        self.assertEqual(
            [it.cells for it in found.strangers],
            [((2, 0), (3, 0), (2, 1), (3, 1)), ((5, 1), (6, 1)), ((8, 0), (8, 1))],
        )
        self.assertTrue(all(it.stands_by for it in found.strangers))
        shifted = design.read(blueprint(belt(0.5, 0.5), thing("small-lamp", 2, 1)))
        self.assertEqual((shifted.shift, shifted.strangers[0].cells), ((1, 1), ((1, 0),)))


class Traces(Case):
    def test_the_traced_network_is_the_program_s(self):
        texts = [it.read_text() for it in sorted(EXAMPLES.glob("*.json"))]
        texts += [it.text for it in entries(strings.inflate(BOOK.read_text()).decode())[0]]
        compared = 0
        for text in texts:
            told = subprocess.run([program_path(), "recover"], input=text, capture_output=True, text=True)
            if told.returncode == 0:
                self.assertTrue(trace.same_network(traced(text)[1], told.stdout))
                compared += 1
        self.assertGreaterEqual(compared, 25)

    def test_another_network_is_noticed(self):
        network = traced(TAP)[1]
        text = "\n".join(network.lines()) + "\n"
        self.assertTrue(trace.same_network(network, text))
        for old, new in (("edge i0 s1", "edge i0 s0"), (" 3\n", " 2\n"), ("net 1 3 2", "net 1 3 3")):
            self.assertIn(old, text)
            self.assertFalse(trace.same_network(network, text.replace(old, new, 1)))

    def test_what_has_no_network_says_why(self):
        under = {"name": "underground-belt", "type": "input"}
        cases = {
            blueprint(belt(0, 0), belt(0, 0)): "one tile",
            blueprint(belt(0, 0) | under): "no other end",
            blueprint(belt(0, 0) | under | {"type": "output"}): "no other end",
            blueprint(belt(0, 1), belt(0, 0, 4)): "can't go on",
            blueprint(belt(1, 0, 0), belt(0, 0, 2), belt(2, 0, 6)): "from its side",
            blueprint(belt(0, 0, 2), belt(1, 0, 4), belt(1, 1, 6), belt(0, 1, 0)): "ring",
        }
        for text, why in cases.items():
            with self.subTest(why=why), self.assertRaisesRegex(trace.Untraced, why):
                traced(text)


class Pictures(Case):
    def golden(self, name, found):
        """Compares with the file of this name, in lines of one element each."""
        lines = found.replace("><", ">\n<") + "\n"
        self.assertEqual(lines, (GOLDEN / name).read_text())

    def test_the_picture_of_mixed_tiers(self):
        drawn = picture.Picture(*traced(TAP))
        self.assertEqual(drawn.box, (0, -1, 3, 7))
        self.golden("express-tap.svg", drawn.parts("ways") + drawn.ends())

    def test_a_state_on_the_picture(self):
        drawn = picture.Picture(*traced(TAP))
        state = states.read_state((EXAMPLES / "express-tap-1-to-3.not-unlimited").read_text())
        ends = {"i0": state.loads[0]} | {f"o{k}": room for k, room in enumerate(state.rooms)}
        self.golden("express-tap-state.svg", flows.flows(drawn, state, "ways") + drawn.ends(ends))

    def test_belts_that_cross_under_one_another(self):
        drawn = picture.Picture(*traced((EXAMPLES / "woven-3-to-3.json").read_text()))
        self.golden("woven.svg", drawn.parts("ways") + drawn.ends())

    def test_a_turn_by_four_quarters_is_none(self):
        shapes = [it for name, it in vars(picture).items() if name.isupper() and isinstance(it, list)]
        self.assertGreater(len(shapes), 10)
        for shape in shapes:
            self.assertEqual(picture.placed(shape, 4, (0, 0)), picture.placed(shape, 0, (0, 0)))
            self.assertEqual(picture.mirrored(picture.mirrored(shape)), shape)
            self.assertEqual(picture.placed(picture.backwards(shape), 0, (0, 0)), picture.placed(shape, 2, (0, 0)))

    def test_a_way_under_the_ground_is_told_apart(self):
        drawn = picture.Picture(*traced((EXAMPLES / "tunnel-1-to-1.json").read_text()))
        (edge,) = drawn.network.edges
        self.assertEqual([under for _, under in flows.pieces(drawn.design.parts, edge)], [False, True, False])
        points = [point for line, _ in flows.pieces(drawn.design.parts, edge) for point in line]
        self.assertEqual((points[0], points[-1]), ((0, 12), (72, 12)))

    def test_all_that_is_marked(self):
        drawn = marked_picture()
        self.golden("marks.svg", drawn.parts("ways"))
        self.assertIn("a&lt;b&gt;", drawn.parts("ways"))

    def test_elements_are_json_of_whole_numbers(self):
        def numbers(elements):
            for name, members, content in elements:
                self.assertIsInstance(name, str)
                yield from (it for it in members.values() if not isinstance(it, str))
                yield from numbers(content) if isinstance(content, list) else ()

        found = marked_picture()
        elements = picture.drawn(found.design.parts, found.design.strangers, found.marks)
        self.assertEqual(json.loads(json.dumps(elements)), elements)
        self.assertEqual({type(it) for it in numbers(elements)}, {int})
        self.assertEqual(re.findall(r"\d[.]", picture.svg(elements)), [])

    def test_each_fifth_column_and_row_is_numbered(self):
        told = [(content, it["x"], it["y"]) for _, it, content in picture.rules((-1, 4, 7, 7))]
        self.assertEqual(told, [("0", 12, 89), ("5", 132, 89), ("5", -36, 135), ("10", -36, 255)])

    def test_bare_ends(self):
        found = [(it.part, it.half, it.front) for it in trace.bare_ends(marked_picture().design.parts)]
        self.assertEqual(found[:3], [(0, 0, False), (0, 1, True), (1, 0, False)])
        whole = design.read((EXAMPLES / "balancer-8-to-8.json").read_text()).parts
        self.assertEqual(trace.bare_ends(whole), [])
        self.assertEqual(len(trace.bare_ends([it for it in whole if it.kind == "splitter"])), 48)

    def test_long_fractions_are_shown_short(self):
        told = {Fraction(1, 2): "1/2", Fraction(59, 64): "59/64", Fraction(127, 128): "0.992", Fraction(1, 10**9): "0"}
        for fraction, text in told.items():
            self.assertEqual(picture.short(fraction), text)
