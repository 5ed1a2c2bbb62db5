"""The parts of files that scripts write, between lines with the comments `NAME, by SCRIPT` and `end`, as
`<!-- NAME, by SCRIPT -->` and `<!-- end -->` in a page."""

import re

OPENS, CLOSES = r'[ \t]*(?:<!--|//|/\*|--|#|\.\\") ', r'(?: -->| \*/)?'


def marked(text, name, script):
    """Returns where a file has a part, as a match whose first group is what stands there, or None."""
    begin = rf'^{OPENS}{re.escape(name)}, by {re.escape(script)}{CLOSES}\n'
    return re.search(rf'{begin}(.*?)\n?^{OPENS}end{CLOSES}$', text, re.M | re.S)


def filled(text, name, script, part):
    """The file with another part; the same, where it has no such part."""
    found = marked(text, name, script)
    if not found:
        return text
    begin, end = found.span(1)
    rest = text[end:].removeprefix('\n').removeprefix('\n')
    part = part.rstrip('\n')
    # (rt fmt has an empty line above `-- end`)
    return text[:begin] + part + ('\n\n' if rest.startswith('-- end') else '\n') + rest
