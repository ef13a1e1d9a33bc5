"""Requests that a network refused, by the statuses and reasons of its answers, and tables that are full."""
from collections import Counter

from explaining.hearing import Hearing
from explaining.source import Finding, quoted
from frames import (ASSOCIATION_REQUEST, ASSOCIATION_RESPONSE, AUTHENTICATION, DEAUTHENTICATION, DISASSOCIATION,
                    HEADER_LEN, MANAGEMENT, PROBE_REQUEST, REASSOCIATION_REQUEST, REASSOCIATION_RESPONSE, SSID, Frame,
                    elements, first_of, number)
from texts import Line

MOST_NAMED = 3
FIXED_BEFORE_ELEMENTS = {PROBE_REQUEST: 0, ASSOCIATION_REQUEST: 4, REASSOCIATION_REQUEST: 10}


def of_statuses(hearing: Hearing, are_several: bool) -> list[Finding]:
    """Requests that were refused, by the statuses and reasons of the answers, of one trace or of several."""
    section, findings = hearing.section, []
    sent = Counter(answer for answer in map(answer_of, section.air) if answer)
    known, stations = hearing.limit("max_known"), hearing.limit("max_stations")
    texts = {
        (AUTHENTICATION, 1): ("authentications refused with status 1", f"`max_known = {known}` is reached, and a "
                              "station stays known until it deauthenticates"),
        (AUTHENTICATION, 13): ("authentications refused with status 13", "they weren't Open System (WEP, SAE, FT)"),
        (AUTHENTICATION, 14): ("authentications refused with status 14", "their sequence number wasn't 1"),
        (ASSOCIATION_RESPONSE, 17): ("associations refused with status 17", f"`max_stations = {stations}` is reached"),
        (ASSOCIATION_RESPONSE, 18): ("associations refused with status 18", "the station hasn't a basic rate of "
                                     "`rates`, whose high bit makes it basic"),
        (DEAUTHENTICATION, 6): ("requests answered by a deauthentication, reason 6", "the station is unknown"),
        (DEAUTHENTICATION, 7): ("frames answered by a deauthentication, reason 7", "the station is unknown: it joined "
                                "before the trace begins, or not at all"),
        (DISASSOCIATION, 7): ("frames answered by a disassociation, reason 7", "the station isn't associated")}
    for answer, (what, reason) in texts.items():
        if sent[answer]:
            order = "; only the lines of one trace keep their order, so what another says may come before or after" \
                if are_several and answer[0] in (DEAUTHENTICATION, DISASSOCIATION) else ""
            findings.append(Finding(f"{hearing.name}: {what}: {sent[answer]} ({reason}{order})"))
    if sent[ASSOCIATION_RESPONSE, 1]:
        names = Counter(name for line in hearing.heard if (name := name_asked_for(line)) is not None
                        and name != section.ssid and not Frame(line.octets).is_management(PROBE_REQUEST))
        asked = ", ".join(quoted(name.decode("utf-8", "replace")) for name, _ in names.most_common(MOST_NAMED))
        findings.append(Finding(f"{hearing.name}: associations refused with status 1: {sent[ASSOCIATION_RESPONSE, 1]} "
                                f"(they named another SSID{f', {asked},' if asked else ''} than "
                                f"{quoted(section.ssid.decode('utf-8', 'replace'))})"))
    return findings


def of_full_table(hearing: Hearing) -> list[Finding]:
    """A network that knows as many stations as it may, and has refused none yet."""
    known = hearing.limit("max_known")
    refused = any(answer_of(octets) == (AUTHENTICATION, 1) for octets in hearing.section.air)
    if known != len(hearing.section.stations) or refused:
        return []
    return [Finding(f"{hearing.name}: it knows as many stations as it may, `max_known = {known}`: each new one will be "
                    "refused (status 1)")]


def answer_of(octets: bytes) -> tuple[int, int] | None:
    """The kind of an answer that refuses, and its status or reason; both kinds of association response are one."""
    frame = Frame(octets)
    if frame.type != MANAGEMENT:
        return None
    at = {AUTHENTICATION: 4, ASSOCIATION_RESPONSE: 2, REASSOCIATION_RESPONSE: 2, DEAUTHENTICATION: 0,
          DISASSOCIATION: 0}.get(frame.subtype)
    if at is None:
        return None
    status = number(frame.body[at:at + 2])
    kind = ASSOCIATION_RESPONSE if frame.subtype == REASSOCIATION_RESPONSE else frame.subtype
    return (kind, status) if status else None


def name_asked_for(line: Line) -> bytes | None:
    """The SSID that a probe or an association request names."""
    frame = Frame(line.octets)
    if line.kind != "A" or len(line.octets) < HEADER_LEN or frame.type != MANAGEMENT or \
            frame.subtype not in FIXED_BEFORE_ELEMENTS:
        return None
    listed = elements(frame.body[FIXED_BEFORE_ELEMENTS[frame.subtype]:])
    return first_of(listed, SSID) if listed else None
