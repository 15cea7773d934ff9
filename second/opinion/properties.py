"""The six properties, and what each presumes of loads and rooms.

A load is what an input may give, and a room what an output can take. An end is short where its
flow is less than that.
"""

PROPERTIES = ("balanced", "drawn-evenly", "unlimited", "full", "fair", "drawn-fairly")
FULL_LOADS = ("drawn-evenly", "full")  # of these all loads are at the caps
FULL_ROOMS = ("balanced", "full")  # and of these all rooms
EVEN = ("balanced", "drawn-evenly")  # these promise that all outputs, or inputs, carry the same
FAIR = ("fair", "drawn-fairly")  # and these that none that is short carries less than another
