"""Captures: `files` reads and writes them by scapy, and `hearing` finds the lines of a trace in them. Without scapy
both still load, and `files.need_scapy` names Debian's package."""
