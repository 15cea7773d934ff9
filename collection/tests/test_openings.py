"""Bare halves, labels, and what is left out of a design."""

import json
import re
import subprocess

from .. import cleaning, design, ends, labels, openings, refusals, trace
from . import Case, belt, blueprint, program_path, test_ends, trimming

WHOLE = {"balancer-16-to-16", "balancer-4-to-4", "balancer-8-to-8", "balancer-8-to-8-in-9x11", "loop-back-3-to-3"}
WHOLE |= {"balancer-8-to-8-in-9x9", "loop-5-to-5", "loop-6-to-6", "loop-7-to-7"}
WHOLE |= {"loop-5-to-5-in-9x11", "loop-6-to-6-in-9x10", "loop-7-to-7-in-9x9"}
WHOLE |= {"universal-2-to-2-in-5x8", "universal-4-to-4-in-15x18"}
WHOLE |= {"pinned-4-to-4", "splitter-2-to-2", "woven-3-to-3", "Balancers/2 to 2", "Balancers/3 to 3, looped"}
WHOLE |= {"Balancers/4 to 4", "Balancers/4 to 4, throughput unlimited", "Balancers/6 to 6, looped", "Balancers/8 to 8"}
WHOLE |= {"Balancers/16 to 16", "Mixing/3 to 3, woven", "Mixing/8 to 8 of 8 splitters"}
"""The examples whose splitters have no unused half."""

UNDER, DOWN, UP = "underground-belt", {"type": "input"}, {"type": "output"}


def recover(text):
    """What the program says of a text."""
    told = subprocess.run([program_path(), "recover"], input=text.encode(), capture_output=True, check=False)
    return told.stdout.decode() if told.returncode == 0 else told.stdout.decode().splitlines()[0]


def opened(text, label="", mode="label"):
    return openings.opened(openings.Opening(text, design.bystanders(text), recover), mode, label)


def unnamed(network):
    """A network's lines without the names of its ends."""
    return sorted(re.sub(r"\b([io])\d+", r"\1", line) for line in network.splitlines())


def splitter(x, y, direction=0, **more):
    return belt(x + (direction % 4 == 0) / 2, y + (direction % 4 == 2) / 2, direction, "splitter", **more)


def text_of(parts):
    """A blueprint of these parts."""
    found, words = [], {"entrance": DOWN, "exit": UP}
    for it in parts:
        body = {"splitter": "splitter", "belt": "transport-belt"}.get(it.kind, UNDER)
        x, y = (sum(cell[axis] for cell in it.cells) / len(it.cells) for axis in (0, 1))
        found.append(belt(x, y, 2 * it.direction, design.PREFIXES[it.tier] + body, **words.get(it.kind, {})))
    return blueprint(*found)


class Labels(Case):
    def test_each_spelling(self):
        spellings = "4 to 4,4-to-4,4to4,4 TO 4,4_to_4,4-4,4 – 4,4:4,4x4,4 X 4,4×4,4→4,4 -> 4,4=>4,4 ➡ 4,"
        spellings += "[color=red]4-4[/color],[item=splitter] 4:4 [virtual-signal=signal-9],balancer-4-to-4-in-9x11"
        for label in [*spellings.split(","), "04 to 04, unlimited", "4 to 4, 6 splitters, v2.0", "a (4→4)", "4 to 4."]:
            with self.subTest(label=label):
                self.assertEqual(labels.told(label), [(4, 4)])

    def test_what_tells_nothing(self):
        silent = "tree,2023-10,2023-10-05,10-2023,v1.2:3,4x4x4,0 to 4,to 4,4 to,4 to 4.5,4-4b,a4-4"
        for label in ["", *silent.split(",")]:
            with self.subTest(label=label):
                self.assertEqual(labels.told(label), [])

    def test_one_that_isn_t_clear_tells_of_several(self):
        self.assertEqual(labels.told("4-4 or 8-8"), [(4, 4), (8, 8)])
        self.assertEqual(labels.spelled(labels.told("1 to 2, 1 to 3")), "1 to 2 or 1 to 3")


class Examples(Case):
    def test_trimmed_to_their_splitters(self):
        found = list(trimming.designs())
        self.assertEqual(len(found), 46)
        for name, text in found:
            with self.subTest(name=name):
                label = name.split("/")[-1]
                it = opened(trimming.trimmed(text), label)
                network = recover(text)
                if name in WHOLE:
                    self.assertEqual((unnamed(it.answer), it.unopened), (unnamed(network), []))
                    self.assertIn(it.after, labels.told(label))
                elif unnamed(it.answer) != unnamed(network):
                    self.assertTrue(it.unopened or it.would > labels.told(label)[0], (it.after, it.would))

    def test_one_end_belt_missing(self):
        counts = {"same": 0, "other": 0}
        for name, text in trimming.designs():
            network, label = unnamed(recover(text)), name.split("/")[-1]
            for number, missing in enumerate(trimming.with_one_missing(text)):
                with self.subTest(name=name, number=number):
                    it = opened(missing, label)
                    same = unnamed(it.answer) == network
                    counts["same" if same else "other"] += 1
                    told = it.unopened or it.would > it.before or it.after != labels.told(label)[0]
                    self.assertTrue(same or told)
        self.assertGreaterEqual(sum(counts.values()), 204)
        self.assertLessEqual(counts["other"], 12)


class Openings(Case):
    TAP = blueprint(splitter(0, 0), belt(0, 1), belt(0, -1))

    def test_only_what_is_asked_is_opened(self):
        cases = {
            ("never", "2 to 2"): (1, 1),
            ("label", ""): (1, 1),
            ("label", "1 to 1"): (1, 1),
            ("label", "2 to 2"): (2, 2),
            ("label", "1 to 2"): (1, 2),
            ("label", "2 to 1"): (2, 1),
            ("label", "3 to 3"): (1, 1),
            ("always", "1 to 1"): (2, 2),
        }
        for (mode, label), ends in cases.items():
            with self.subTest(mode=mode, label=label):
                it = opened(self.TAP, label, mode)
                self.assertEqual((it.before, it.after, it.would), ((1, 1), ends, (2, 2)))
                self.assertEqual(it.answer.splitlines()[0], f"net {ends[0]} {ends[1]} 1")
                self.assertEqual(len(it.opened), sum(ends) - 2)
                self.assertEqual(it.text == self.TAP, not it.opened)

    def test_without_an_end_and_a_label_all_is_opened(self):
        for label in ("", "2 to 2"):
            it = opened(blueprint(splitter(0, 0)), label)
            self.assertEqual((it.before, it.after, it.belts), ((0, 0), (2, 2), 4))
        self.assertEqual(opened(blueprint(splitter(0, 0), belt(0, 1)), "1 to 2").after, (1, 2))

    def test_belts_are_of_the_tier_and_reach_beyond_the_border(self):
        fast = splitter(0, 0) | {"name": "fast-splitter"}
        it = opened(blueprint(fast, belt(4, -2), belt(4, 3)), mode="always")
        parts = design.read(it.text).parts[3:]
        self.assertEqual({(part.tier, part.direction) for part in parts}, {("fast", design.NORTH)})
        cells = [part.cells[0] for part in parts]
        self.assertEqual(sorted(cells), [(x, y) for x in (0, 1) for y in (-3, -2, -1, 1, 2, 3, 4)])
        self.assertEqual(it.belts, 14)

    def test_grids_and_directions_are_those_of_the_text(self):
        for version, eighths in ((1 << 48, 1), (2 << 48, 2)):
            text = blueprint(splitter(0.5, 0.5, 2 * eighths % 8 or 2) | {"direction": 2 * eighths}, version=version)
            it = opened(text)
            self.assertEqual(it.after, (2, 2))
            self.assertEqual({part.direction for part in design.read(it.text).parts}, {design.EAST})

    def test_a_way_that_is_taken_is_told(self):
        pole = {"name": "small-electric-pole", "position": {"x": 1.5, "y": -1.5}}
        beyond = {"name": "small-electric-pole", "position": {"x": 1.5, "y": 3.5}}
        text = blueprint(splitter(0, 0), belt(0, 1), belt(0, -4), pole, beyond)
        clean = cleaning.cleaned(text)
        opening = openings.Opening(clean.text, design.bystanders(text), recover)
        it = openings.opened(opening, "always", "")
        reasons = dict(it.unopened)
        self.assertEqual(reasons["output", 0, 0], "the belt at tile (0, -4) is in the way")
        self.assertEqual(reasons["output", 1, 0], "small-electric-pole at tile (1, -2) is in the way")
        self.assertEqual(it.opened, [("input", 1, 0)])

    def test_of_two_ways_that_cross_the_longer_is_turned(self):
        def crossing(direction, *more):
            under = belt(2, 1, direction, UNDER, **DOWN), belt(7, 1, direction, UNDER, **UP)
            under = under if direction == 2 else (under[0] | UP, under[1] | DOWN)
            return blueprint(splitter(3, 4), belt(3, 5), belt(4, 5), splitter(1, 1, direction), *under, *more)

        for direction, kind, turns in ((2, "output", [4] * 5), (6, "input", [6, 0, 0, 0, 0])):
            it = opened(crossing(direction), mode="always")
            self.assertEqual((it.unopened, sum(it.after)), ([], 8))
            told = {part.cells[0]: 2 * part.direction for part in design.read(it.text).parts}
            self.assertEqual([told[2, y] for y in range(2, 7)], turns)
            it = opened(crossing(direction, belt(2, 4)), mode="always")
            self.assertEqual(it.unopened, [((kind, 1, 2), "its way crosses that of the output at (3, 4)")])

    def test_where_the_program_refuses_what_comes_out_it_stays_bare(self):
        it = opened(blueprint(splitter(0, 0), belt(0, 1), belt(1, 1), belt(1, -1, 6)), mode="always")
        (((kind, *cell), why),) = it.unopened
        self.assertEqual((it.opened, kind, cell), ([], "output", [0, 0]))
        self.assertIn("with belts there the program says: refused 32 SideLoad", why)

    def test_where_the_program_tells_another_network_it_stays_bare(self):
        def lying(text):
            return recover(text).replace("edge s0 o1\n", "edge s0 o1 2\n")

        opening = openings.Opening(blueprint(splitter(0, 0), belt(0, 1), belt(0, -1)), [], lying)
        it = openings.opened(opening, "always", "")
        self.assertEqual(it.opened, [("input", 1, 0)])
        self.assertEqual(it.unopened, [(("output", 1, 0), "with belts there the network would be another one")])

    def test_ends_without_room_are_marked_in_the_network(self):
        pole = {"name": "small-electric-pole", "position": {"x": 1.5, "y": -0.5}}
        text = blueprint(splitter(0, 0, output_priority="right"), belt(0, 1), belt(0, -1), belt(2, -3))
        for there, is_marked in (([], False), ([pole], True)):
            opening = openings.Opening(text, design.bystanders(blueprint(*there, belt(9, 9))), recover)
            it = openings.opened(opening, "label", "3 to 3")
            self.assertEqual((it.ends, it.after, it.is_marked, it.unopened), (ends.ALL, (3, 3), is_marked, []))
            self.assertEqual(it.text == text, is_marked)
            self.assertEqual(it.answer.splitlines()[0], "net 3 3 1")
            self.assertEqual([line[:8] for line in it.answer.splitlines() if line.startswith("give")], ["give s0 "])

    def test_ends_are_led_out_along_paths_where_no_straight_way_is_free(self):
        pole = {"name": "small-electric-pole", "position": {"x": 1.5, "y": -1.5}}
        text = blueprint(splitter(0, 0), belt(0, 1), belt(0, -1), belt(2, -3))
        opening = openings.Opening(text, design.bystanders(blueprint(pole, belt(9, 9))), recover)
        it = openings.opened(opening, "label", "3 to 3")
        self.assertEqual((it.ends, it.after, it.is_marked, it.belts), (ends.ALL, (3, 3), False, 5))
        parts = design.read(it.text).parts[4:]
        self.assertEqual(
            sorted((*part.cells, part.direction) for part in parts),
            [((1, -1), 1), ((1, 1), 0), ((1, 2), 0), ((2, -1), 1), ((3, -1), 1)],
        )

    def test_what_recover_says_is_held_against_marked_ends(self):
        pole = {"name": "small-electric-pole", "position": {"x": 1.5, "y": -0.5}}
        text = blueprint(splitter(0, 0), belt(0, 1), belt(0, -1), belt(2, -3))

        def lying(asked):
            return recover(asked).replace("edge i0 s0\n", "edge i0 s0 2\n") if asked.startswith("net") else recover(
                asked
            )

        opening = openings.Opening(text, design.bystanders(blueprint(pole, belt(9, 9))), lying)
        self.assertEqual(openings.opened(opening, "label", "3 to 3").ends, ends.NONE)

    def test_a_pair_that_is_the_size_of_the_design_is_none(self):
        text = blueprint(belt(0, 0), belt(0, 1), belt(1, 0), belt(1, 1), belt(2, 0), belt(2, 1))
        self.assertEqual(opened(text, "lanes 3x2").ends, ends.WHOLE)
        self.assertEqual(opened(text, "lanes 4x2").ends, ends.NONE)
        self.assertEqual(opened(text, "lanes 3 to 2").ends, ends.NONE)

    def test_where_nothing_is_decided_nothing_is_opened(self):
        gap = blueprint(splitter(0, 0), splitter(0, -2))
        for label in ("", "1 to 1"):
            it = opened(gap, label)
            self.assertEqual((it.ends, it.gaps, it.text), (ends.GAP, [(0, -1), (1, -1)], gap))
        self.assertEqual(opened(gap, "4 to 4").ends, ends.ALL)
        self.assertEqual((opened(gap, "", "always").gaps, opened(gap, "", "never").gaps), ([(0, -1), (1, -1)],) * 2)
        self.assertEqual(opened(self.TAP, "7 to 9").ends, ends.NONE)

    def test_several_choices_are_a_design_each(self):
        case = next(it for it in test_ends.CASES if it["expected"]["status"] == ends.SEVERAL)
        it = opened(text_of(test_ends.parts_of(case["parts"])), case["label"])
        self.assertEqual((it.ends, it.opened, len(it.choices)), (ends.SEVERAL, [], len(case["expected"]["choices"])))
        self.assertGreater(len(it.choices), 1)
        self.assertEqual(len({str(unnamed(one.answer)) for one in it.choices}), len(it.choices))
        self.assertIn(it.choices[0].after, labels.told(case["label"]))
        self.assertEqual(len({one.after for one in it.choices}), 1)

    def test_ends_are_taken_out_of_a_network(self):
        net = "net 2 2 1,edge i0 s0,edge i1 s0,edge s0 o0,edge s0 o1 3,give s0 3,take s0 1,end".split(",")
        left = "net 1 1 1,edge i0 s0,edge s0 o0 3,give s0 1,end".split(",")
        self.assertEqual(openings.without(net, {"i1", "o0"}), left)
        self.assertEqual(openings.without(net, set()), net)

    def test_a_preferred_half_that_is_opened_prefers(self):
        it = opened(blueprint(splitter(0, 0, output_priority="right"), belt(0, 1), belt(0, -1)), "1 to 2")
        self.assertEqual(it.answer.splitlines()[-2:], ["give s0 2", "end"])

    def test_a_refused_design_is_refused(self):
        with self.assertRaisesRegex(openings.Refused, "refused 30 Overlap 0 1"):
            opened(blueprint(belt(0, 0), belt(0, 0)))

    def test_no_more_entities_than_the_program_takes(self):
        lanes = [belt(x, -10 * y, 2) for y in range(7) for x in range(2000)]
        text = blueprint(*lanes, splitter(1000, 2, 2), splitter(1000, 5, 2))
        it = opened(text, mode="always")
        self.assertEqual((it.belts, it.opened), (2000, [("output", 1000, 2), ("output", 1000, 3)]))
        self.assertEqual({why for _, why in it.unopened}, {"the design would have more than 16384 entities"})


class Cleaning(Case):
    def test_each_bystander_is_left_out(self):
        self.assertGreater(len(design.BYSTANDERS), 40)
        for name in design.BYSTANDERS:
            text = blueprint(belt(0, 0), {"name": name, "position": {"x": 5, "y": 5}}, belt(0, -1))
            clean = cleaning.cleaned(text)
            self.assertEqual(clean.notes, [f"left out, since it can't touch a belt: 1 × {name}"])
            self.assertEqual(recover(clean.text), recover(blueprint(belt(0, 0), belt(0, -1))))
        for name in ("inserter", "loader", "assembling-machine-1", "stone-furnace", "straight-rail", "unheard-of"):
            text = blueprint(belt(0, 0), {"name": name, "position": {"x": 5, "y": 5}})
            self.assertEqual(cleaning.cleaned(text), cleaning.Cleaned(text))

    def test_a_belt_that_is_only_read(self):
        reading = (
            {},
            {"circuit_read_hand_contents": True, "circuit_contents_read_mode": 0},
            {"circuit_enable_disable": False, "circuit_condition": {}, "circuit_read_hand_contents": True},
            {"circuit_enabled": False, "circuit_condition": {}},
            {"connect_to_logistic_network": False, "logistic_condition": {}},
        )
        stopping = (
            {"circuit_condition": {}},
            {"circuit_enable_disable": True},
            {"circuit_enabled": True, "circuit_condition": {}},
            {"circuit_enabled": True, "circuit_enable_disable": False, "circuit_condition": {}},
            {"connect_to_logistic_network": True},
            {"logistic_condition": {}, "circuit_enabled": False},
            {"unheard_of": False},
            7,
        )
        for behaviour in reading:
            clean = cleaning.cleaned(blueprint(belt(0, 0, control_behavior=behaviour, more=1)))
            self.assertEqual(recover(clean.text), "net 1 1 0\nedge i0 o0\nend\n")
            self.assertEqual(clean.notes, ["left out, since it only reads: control_behavior of 1 × transport belt"])
        for behaviour in stopping:
            text = blueprint(belt(0, 0, control_behavior=behaviour))
            self.assertEqual(cleaning.cleaned(text), cleaning.Cleaned(text))
            self.assertEqual(recover(text), "refused 27 Special 0 control_behavior")
        text = blueprint(splitter(0, 0, control_behavior={}), belt(0, 1))
        self.assertEqual(cleaning.cleaned(text).text, text)

    def test_parts_of_a_mod(self):
        names = {"ultra-fast-belt": "belt", "my-underground-belt": "entrance", "kr-advanced-splitter": "splitter"}
        treated = [cleaning.of_tier(f"{name}=express") for name in names]
        text = blueprint(
            belt(0, 0, name="ultra-fast-belt"),
            belt(2, 0, name="my-underground-belt", type="input"),
            splitter(4, 0) | {"name": "kr-advanced-splitter"},
        )
        clean = cleaning.cleaned(text, treated)
        found = design.read(clean.text).parts
        self.assertEqual([(it.kind, it.tier) for it in found], [(kind, "express") for kind in names.values()])
        self.assertEqual(len(clean.notes), 1)
        self.assertEqual(cleaning.cleaned(text).text, text)

    def test_links_to_what_is_left_out_go_too(self):
        lamp = {"name": "small-lamp", "position": {"x": 9, "y": 9}}
        reads = {"connections": {"1": {"red": [{"entity_id": 2}, {"entity_id": 3}], "green": [{"entity_id": 2}]}}}
        only = {"connections": {"1": {"red": [{"entity_id": 2}]}}}
        wires = [[1, 1, 2, 1], [1, 1, 3, 1], [2, 2, 3, 2]]
        others = {"icons": [{"index": 1}], "description": "d", "snap-to-grid": {"x": 2, "y": 2}}
        schedules = [{"locomotives": [2], "schedule": []}, {"locomotives": [2, 7]}, {"locomotives": [7]}]
        more = {"wires": wires, "schedules": schedules, "stock_connections": [{"stock": 2}, {"stock": 7}], **others}
        told = json.loads(cleaning.cleaned(blueprint(belt(0, 0, **reads), lamp, belt(0, -1, **only), **more)).text)[
            "blueprint"
        ]
        self.assertEqual(told["wires"], [[1, 1, 3, 1]])
        self.assertEqual(told["schedules"], [{"locomotives": [7]}, {"locomotives": [7]}])
        self.assertEqual(told["stock_connections"], [{"stock": 7}])
        self.assertEqual({name: told[name] for name in others}, others)
        first, second = told["entities"]
        self.assertEqual(first["connections"], {"1": {"red": [{"entity_id": 3}]}})
        self.assertNotIn("connections", second)
        odd = blueprint(belt(0, 0), lamp, wires=[["1", 1, 2.5, 1], 7], schedules={"x": 1})
        self.assertEqual(json.loads(cleaning.cleaned(odd).text)["blueprint"]["wires"], [["1", 1, 2.5, 1], 7])

    def test_loaders_at_the_ends_of_a_rig_are_ends(self):
        def loader(x, y, direction, kind):
            return {"name": "fast-loader", "position": {"x": x + 0.5, "y": y + 1}, "direction": direction, "type": kind}

        chest = {"name": "infinity-chest", "position": {"x": 0.5, "y": 5.5}}
        rig = [belt(0, 1), belt(0, 2), loader(0, 3, 0, "output"), chest, loader(0, -1, 0, "input")]
        clean = cleaning.cleaned(blueprint(*rig))
        self.assertEqual(recover(clean.text), "net 1 1 0\nedge i0 o0\nend\n")
        self.assertIn("taken for ends, with the belts that they stand at: 2 × fast-loader", clean.notes)
        for other in (loader(1, 1, 2, "output") | {"position": {"x": -1, "y": 1.5}}, loader(5, 5, 0, "input")):
            self.assertNotIn("taken for ends", str(cleaning.cleaned(blueprint(*rig, other)).notes))
        between = [belt(0, 1), loader(0, 2, 0, "input"), chest | {"position": {"x": 0.5, "y": 4.5}}]
        between += [loader(0, 5, 0, "output"), belt(0, 7)]
        self.assertNotIn("taken for ends", str(cleaning.cleaned(blueprint(*between)).notes))

    def test_a_name_is_taken_for_nothing(self):
        text = blueprint(belt(0, 0), {"name": "a-sign", "position": {"x": 5, "y": 5}})
        clean = cleaning.cleaned(text, [cleaning.of_tier("a-sign=nothing")])
        self.assertEqual(recover(clean.text), "net 1 1 0\nedge i0 o0\nend\n")
        self.assertEqual(clean.notes, ["left out, since it can't touch a belt: 1 × a-sign"])
        self.assertTrue(design.bystanders(text, [("a-sign", None)]))

    def test_wrong_names(self):
        cases = {
            "x": "NAME=TIER is wanted",
            "a-belt=": "NAME=TIER is wanted",
            "=fast": "NAME=TIER is wanted",
            "a-belt=slow": "NAME=TIER is wanted",
            "splitter=fast": "is a part of the game",
            "loader=fast": "nothing in the name loader says",
        }
        for words, why in cases.items():
            with self.subTest(words=words), self.assertRaisesRegex(cleaning.WrongName, why):
                cleaning.of_tier(words)

    def test_the_rest_of_the_text_stays(self):
        odd = '{ "blueprint" :{"x":[1.50e2,"é"],"entities":[%s {"position":{"x":0.50,"y":5e-1},"name":'
        odd += '"transport-belt"} ], "version":1 }}'
        lamp = '{"name":"small-lamp","position":{"x":9,"y":9}},'
        self.assertEqual(cleaning.cleaned(odd % lamp).text, odd.replace("%s ", ""))
        twice = '{"blueprint":{"entities":[{"name":"small-lamp","name":"x"}]}}'
        for text in ("{", "[]", '{"blueprint":{}}', twice, odd % ""):
            self.assertEqual(cleaning.cleaned(text), cleaning.Cleaned(text))


class Refusals(Case):
    def told(self, *entities, **more):
        text = blueprint(*entities, **more)
        it = refusals.refusal(recover(text), text)
        return it.words, [cells for cells, _ in it.places]

    def test_which_splitters_want_a_belt(self):
        words, cells = self.told(splitter(0, 0), belt(0, 1))
        self.assertIn("belts are wanted at halves of splitters: input at (1, 0) and outputs at (0, 0), (1, 0)", words)
        self.assertEqual(cells, [((0, 0),), ((1, 0),), ((1, 0),)])

    def test_from_where_a_belt_is_loaded(self):
        words, cells = self.told(belt(0, 0, 2), belt(1, 0, 2), belt(1, 1, 0))
        self.assertIn("entity 2 (transport-belt at tile (1, 0)) is loaded", words)
        self.assertIn("from tiles (1, 1) and (0, 0)", words)
        self.assertEqual(cells, [((1, 0),), ((1, 1),), ((0, 0),)])
        under = belt(1, 0, 0, UNDER, **DOWN), belt(1, -1, 0, UNDER, **UP)
        words, _ = self.told(belt(0, 0, 2), *under)
        self.assertIn("underground-belt at tile (1, 0)) is loaded", words)
        self.assertIn("from tile (0, 0)", words)

    def test_at_what_a_belt_ends(self):
        cases = {
            "runs head-on into the belt at tile (1, 0)": [belt(1, 0, 6)],
            "runs into the side of the splitter at tile (1, 0)": [splitter(1, 0)],
            "runs into the back of the underground exit at tile (1, 0)": [
                belt(-4, 0, 2, UNDER, **DOWN),
                belt(1, 0, 2, UNDER, **UP),
            ],
        }
        for words, others in cases.items():
            told, cells = self.told(belt(0, 0, 2), *others)
            start = "refused 33 Blocked: what leaves entity 1 (transport-belt at tile (0, 0)) can't go on"
            self.assertIn(f"{start}: it {words}", told)
            self.assertEqual(cells, [((0, 0),), ((1, 0),)])

    def test_what_is_on_no_tile_is_told_by_its_position(self):
        words, cells = self.told(belt(0, 0), belt(3.25, 0))
        self.assertIn("entity 2 (transport-belt at x 3.75, y 0.5) stands off the grid", words)
        self.assertEqual(cells, [((3, 0),)])
        words, _ = self.told(belt(0, 0), belt(0, 0))
        self.assertIn("entity 1 (transport-belt at tile (0, 0)) and entity 2 (transport-belt at tile (0, 0))", words)
