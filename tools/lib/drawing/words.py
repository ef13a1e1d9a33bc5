"""What a mark of a picture says, in words, for who points at it."""
from drawing.columns import BEACON_KINDS, OTHERS
from fields import REASONS, STATUSES
from story import GROUP, MORE, NOTHING, WENT_BACK, WIRE

ASKS = {"P": "asks which networks are there", "A": "authenticates", "J": "asks to associate",
        "R": "asks to reassociate",
        "D": "leaves", "U": "sends data", "S": "polls for a unit that is kept"}
UNITS = {"sent": "is sent at once", "kept": "is kept", "delivered": "that was kept is sent",
         "dropped": "that was kept is dropped", "lost": "is lost", "wired": "is put on the wire"}


def who(row):
    """A row, for a person."""
    return {GROUP: "the group", WIRE: "the wire", OTHERS: "somebody", None: "somebody"}.get(row) or row.hex(":")


def mark_text(item):
    """The words of a mark, and how many of its kind there are."""
    said = words_of(item)
    return f"{said}, {item.count} times" if item.count > 1 else said


def words_of(item):
    """The words of a mark."""
    if item.what in BEACON_KINDS:
        return f"a {item.what} says that units wait for {item.text.replace('aid', 'identifier')}"
    if item.what == "unread":
        return "a frame that can't be read"
    if item.what in UNITS:
        sender = f" from {who(item.sender)}" if item.sender is not None else ""
        sender = " that went back to the program" if item.text == WENT_BACK else sender
        whom = "" if item.what == "wired" or item.row == WIRE else f" for {who(item.row)}"
        more = ", and says that more wait (More Data)" if item.text == MORE else ""
        return f"a unit{sender}{whom} {UNITS[item.what]}{more}"
    frame = "a unit that went back to the program" if item.text == WENT_BACK else "a frame from the wire"
    asks = f"{who(item.row)} {ASKS[item.letter]}" if item.letter else frame
    endings = {"answered": f", and is answered{': ' + item.text.replace('aid', 'identifier') if item.text else ''}",
               "refused": f", and is refused: status {code(item.text, STATUSES)}",
               "turned away": f", and isn't associated: reason {code(item.text, REASONS)}",
               NOTHING: ", which brings nothing"}
    return asks + endings.get(item.what, "")


def code(text, names):
    """A status or a reason, with what it means."""
    return f"{text} ({names[int(text)]})" if text.isdigit() and int(text) in names else text
