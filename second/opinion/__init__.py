"""A second opinion on what beltproof says, by Python's standard library alone.

It was written from the formats and shares no code with the program. A text has one character for
each byte. To be read in this order:

    answers         verdicts and refusals
    numbers, lines  exact fractions within 128 bits, and the lines of a text
    networks        networks and their texts
    json_text       JSON, and where it goes wrong
    parts           the belts, underground pieces and splitters of a blueprint
    recovery        the network that they show
    lanes           the network of their lanes, where belts are loaded from a side
    designs         a network, by its text or by a blueprint
    properties      the six properties
    states          the laws of a steady state, and when a property fails in it
    formula         the flow formula, which says the same in clauses and rows
    definitions     rows, columns and variables that a certificate brings
    certificates    definitions, and steps that refute a formula
    layouts         requests, and whether a blueprint lays one
    fewest          evidence that no network of fewer splitters does it
    words           the commands
"""

from opinion.answers import Answer, need
from opinion.certificates import check_steps
from opinion.definitions import define
from opinion.designs import read_design
from opinion.formula import FlowFormula, Formula
from opinion.json_text import json_value
from opinion.lanes import recover_lanes
from opinion.layouts import are_alike, lays, read_request, stand_in_row
from opinion.lines import lines_of, nothing_after
from opinion.networks import WAYS, Edge, Extras, Net, Pin, Row, read_net
from opinion.numbers import fraction_of, plus
from opinion.parts import BELT, ENTRANCE, EXIT, SIDES, SPLITTER, STEPS, Part, moved, parts_of
from opinion.properties import FAIR, FULL_LOADS, FULL_ROOMS, PROPERTIES
from opinion.recovery import recover
from opinion.states import read_state, tests
from opinion.words import run
