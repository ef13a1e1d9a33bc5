"""Tests of what tools/explain says of stations that go over to another network without leaving the first."""
import test_explain_people as people
from common import ToolTest, needs_program
from test_explain_outcomes import ATTIC, CELLAR, JOINED, STATION, auth, join, managed, wire

GONE_OVER = managed("2000", f"0100 0a00 {ATTIC} 0006{b'cellar'.hex()} 010402040b16", STATION, CELLAR)
LEAVING = f"A c000 0000 {ATTIC} {STATION} {ATTIC} 0000 0300"


class Roaming(ToolTest):
    """A station in two networks."""

    @needs_program
    def test_where_it_went_over_is_told(self):
        said = people.People.explained(self, [*JOINED, auth(STATION, CELLAR), GONE_OVER, wire()])
        for text in ("my.trace:6:67: the station 02:aa:00:00:00:01 is associated in several networks: attic, cellar",
                     "didn't leave attic, which it joined in line 2; Current AP Address isn't looked at",
                     "attic still serves it in line 7", f"write `{LEAVING}` before"):
            self.assertIn(text, said)
        said = people.People.explained(self, [*JOINED, auth(STATION, CELLAR), join(STATION, CELLAR, "cellar")])
        self.assertIn("my.trace:6:13: ", said)
        self.assertNotIn("Current AP", said)

    @needs_program
    def test_one_that_left_before_is_as_it_should_be(self):
        said = people.People.explained(self, [*JOINED, LEAVING, auth(STATION, CELLAR), GONE_OVER])
        self.assertNotIn("several networks", said)
