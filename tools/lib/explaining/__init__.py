"""Explains what the program answered: why it refused a text, or what is odd in a run that ended well.

The program decides. `answers` runs it and reads its line. Of a text that it refused, other modules look for what that
one fault can have come of, and never name another. Of a run that ended well, `line_by_line` asks the program what each
line brought, and `outcomes` says why of those that did nothing, were refused or lost a unit. Where no reason is found
that is said. The modules need nothing but Python's own library.
"""
