"""Tests of what tools/explain says of frames that a network put on its wire and that a wire brings back."""
import test_explain_people as people
from common import ToolTest, needs_program
from explaining.reflected import is_same
from test_explain_outcomes import (ATTICS, CELLAR, CELLARS, HOST, JOINED, OTHER, STATION, THIRD, auth, data, join,
                                   null, wire)

ALL, UNIT = "ffffffffffff", "0800 01"
OF_AIR, RELAYS = "whose frames come by the air", "which doesn't relay"
GUESTS = [auth(THIRD, CELLAR), join(THIRD, CELLAR, "cellar")]
TO_GUEST = data(station=OTHER, network=CELLAR, to=THIRD)


class Reflected(ToolTest):
    """A switch reflects what guests send each other, and a bridge joins the wires of two networks."""

    @needs_program
    def test_what_a_wire_brings_back_is_as_it_should_be(self):
        for lines in ([*GUESTS, TO_GUEST, wire(THIRD, OTHER, CELLARS, UNIT)],
                      [*GUESTS, TO_GUEST, wire(THIRD, OTHER, CELLARS, f"{UNIT} {'00' * 45}")],
                      [*GUESTS, null(station=THIRD, network=CELLAR), TO_GUEST, wire(THIRD, OTHER, CELLARS, UNIT)],
                      [data(to=ALL), wire(ALL, STATION, ATTICS, UNIT)],
                      [auth(STATION, CELLAR), join(STATION, CELLAR, "cellar"), data(to=ALL),
                       wire(ALL, STATION, CELLARS, UNIT)]):
            with self.subTest(lines=lines):
                said = people.People.explained(self, [*JOINED, *lines])
                self.assertNotIn(OF_AIR, said)
                self.assertNotIn(RELAYS, said)

    @needs_program
    def test_what_no_network_put_on_a_wire_is_told(self):
        """Another unit, one that comes before it is sent, and one that another network's wire brings."""
        for lines, says in (([*GUESTS, TO_GUEST, wire(THIRD, OTHER, CELLARS, "0800 02")], (OF_AIR, RELAYS)),
                            ([*GUESTS, wire(THIRD, OTHER, CELLARS, UNIT), TO_GUEST], (OF_AIR,)),
                            ([*GUESTS, TO_GUEST, wire(STATION, HOST)], (RELAYS,)),
                            ([wire(ALL, STATION, ATTICS, UNIT)], (OF_AIR,))):
            with self.subTest(lines=lines):
                said = people.People.explained(self, [*JOINED, *lines])
                for text in says:
                    self.assertIn(text, said)

    def test_zeros_alone_may_follow(self):
        self.assertTrue(is_same(b"\1\2", b"\1\2") and is_same(b"\1\2", b"\1\2\0\0"))
        self.assertFalse(is_same(b"\1\2", b"\1\2\0\1") or is_same(b"\1\2", b"\1") or is_same(b"\1\2", b"\1\3"))
