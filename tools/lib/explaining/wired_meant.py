"""What a frame on a wire that does something may not be meant to say: its source, its destination, when it comes."""
from explaining.nothing import Looked, slip_of_group
from explaining.reason import Reason
from frames import address_text, is_group
from in_words import address_word


def doubtful_on_wire(looked: Looked) -> Reason | None:
    """What is doubtful in a frame that a network took from its wire; None where nothing is."""
    to, source = looked.step.line.octets[:6], looked.step.line.octets[6:12]
    return of_source(looked, to, source) or slip_of_group(looked, to) or of_nobody(looked, to)


def of_source(looked: Looked, to: bytes, source: bytes) -> Reason | None:
    """The source of a frame on a wire that no host can have, or that is a station on the air."""
    owner = looked.step.before.get(source)
    if owner or source == to:
        what = f"the network {owner.name} itself" if owner else "its destination too"
        return Reason(f"its source is {address_text(source)}, {what}: a frame comes from a host on the wire", (6, 12),
                      "on a wire the destination comes first, then the source")
    if source in looked.associated() and looked.past.reflected.went_out(looked.step.line.octets):
        return None
    if source in looked.associated():
        return Reason(f"its source {address_text(source)} is a station of {looked.section.name}, whose frames come "
                      "by the air",
                      (6, 12), "on a wire the destination comes first, then the source; a station's own frame "
                      "stands behind `A`")
    if not is_group(source) and any(source):
        return None
    what = "all zeros" if not any(source) else f"the group address {address_word(source)}"
    return Reason(f"its source is {what}, and a frame comes from one host", (6, 12),
                  "on a wire the destination comes first, then the source")


def of_nobody(looked: Looked, to: bytes) -> Reason | None:
    """A frame for the group that comes before any station has associated, which one does later."""
    here = looked.past.line_number(looked.step.line.number)
    later = [(number, lacks.station) for lacks, number in looked.past.coming.items()
             if lacks.bssid == looked.bssid and number > here]
    if not is_group(to) or looked.associated() or not later:
        return None
    number, station = min(later)
    return Reason(f"no station of {looked.section.name} is associated yet, so nobody hears it; "
                  f"{address_text(station)} asks "
                  f"to associate after that, in line {number}", (0, 6), "write the line behind that one")
