"""Files that are no text of this program, by how they begin: captures, what is packed, programs, pictures, texts in
UTF-16, and octets that are no text at all."""
import called
from explaining.source import Finding, Source
from records import cut, parts

# How such files begin, what they are, and what makes a text of one.
MAGICS = ((b"\xd4\xc3\xb2\xa1", "capture", None), (b"\xa1\xb2\xc3\xd4", "capture", None),
          (b"\x4d\x3c\xb2\xa1", "capture", None), (b"\xa1\xb2\x3c\x4d", "capture", None),
          (b"\x0a\x0d\x0d\x0a", "capture", None), (b"\x1f\x8b", "packed by gzip", "`gunzip` unpacks it"),
          (b"\xfd7zXZ\0", "packed by xz", "`unxz` unpacks it"), (b"BZh", "packed by bzip2", "`bunzip2` unpacks it"),
          (b"\x28\xb5\x2f\xfd", "packed by "
                                "zstd", "`unzstd` unpacks it"), (b"PK\x03\x04", "a zip archive", "`unzip` unpacks it"),
          (b"7z\xbc\xaf\x27\x1c", "a 7z archive", None), (b"\x7fELF", "a program", None), (b"%PDF", "a PDF", None),
          (b"{\\rtf", "a text with its letters' forms (RTF)", "save it as plain text"),
          (b"\x89PNG", "a picture", None), (b"\xff\xd8\xff", "a picture", None),
          (b"SQLite format 3\0", "a database of SQLite", None))
UTF_32 = (b"\xff\xfe\0\0", b"\0\0\xfe\xff")
UTF_16 = (b"\xff\xfe", b"\xfe\xff")
BLANKS, LOOKED_AT, MOST_CONTROLS = b"\t\n\r\f\x1b", 512, 0.1


def other_file(source: Source, what: str, coding: str) -> Finding | None:
    """A file that is no text in this coding, for what is a configuration or a trace."""
    octets = source.octets
    kind, advice = next(((kind, advice) for magic, kind, advice in MAGICS if octets.startswith(magic)), (None, None))
    if kind == "capture":
        makes = "a trace and a configuration" if what == "configuration" else "a trace"
        return Finding(f"{source.name}: this is a capture, and no {what}", None,
                       f"{called.fellow('trace-from-capture')} makes {makes} of it")
    if kind:
        return Finding(f"{source.name}: this file is {kind}, and no text", None, advice)
    if octets.startswith(UTF_32):
        return Finding(f"{source.name}: this text is in UTF-32, and a {what} is in {coding}", None,
                       "`iconv -f UTF-32 -t UTF-8` writes it anew")
    if octets[:1] in (b"A", b"T", b"W", b"I") and is_records(octets):
        return Finding(f"{source.name}: these are records, as `live --octets` reads them, and a {what} is text", None,
                       f"{called.program()} live --octets CONFIG < {source.name} reads them")
    if octets.startswith(UTF_16) or b"\0\0" in (octets[1:4:2], octets[0:3:2]) and len(octets) % 2 == 0:
        return Finding(f"{source.name}: this text is in UTF-16, and a {what} is in {coding}", None,
                       "`iconv -f UTF-16 -t UTF-8` writes it anew")
    return None


def is_records(octets: bytes) -> bool:
    """Whether a file is records to its last octet, with a zero in one."""
    whole, rest = cut(octets)
    return bool(whole) and not rest and b"\0" in octets and all(parts(record)[0] in b"AWTI" for record in whole)


def is_binary(source: Source) -> bool:
    """Whether a file is octets and no text: it isn't UTF-8, and many of its octets are none of a text's."""
    begin = source.octets[:LOOKED_AT]
    controls = sum(octet < 0x20 and octet not in BLANKS for octet in begin)
    return "\ufffd" in source.text and controls > MOST_CONTROLS * len(begin)
