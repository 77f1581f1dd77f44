"""The tokens of a script, and its statements, as docs/DIALECT.md has them. Each token knows its line and its column, from 1."""
import re
from collections import namedtuple

Token = namedtuple('Token', 'kind text value at line column')
Statement = namedtuple('Statement', 'number tokens')

PATTERN = re.compile(r"""(?P<blank>[ \t\r\n]+|--[^\n]*|/\*.*?\*/)
    |(?P<word>[A-Za-z_][A-Za-z0-9_]*)
    |(?P<name>`[^`\n]+`)
    |(?P<text>'(?:[^']|'')*')
    |(?P<digits>[0-9]+(?![A-Za-z_0-9]))
    |(?P<sign>!=|<>|<=|>=|\|\||[(),;.=<>+\-*/%])""", re.X | re.S)


def place_of(text, at):
    """The line and the column of a place in a text, from 1."""
    start = text.rfind('\n', 0, at) + 1
    return text.count('\n', 0, at) + 1, at - start + 1


def value_of(kind, text):
    if kind == 'word':
        return text.upper()
    if kind == 'name':
        return text[1:-1]
    if kind == 'text':
        return text[1:-1].replace("''", "'")
    if kind == 'digits':
        return int(text)
    return '<>' if text == '!=' else text


def tokens_of(text):
    """The tokens up to the first place where none begins, and that place, if any."""
    found, at, line, start = [], 0, 1, 0
    while at < len(text):
        match = PATTERN.match(text, at)
        if not match:
            return found, at
        if match.lastgroup != 'blank':
            kind, part = match.lastgroup, match[0]
            found.append(Token(kind, part, value_of(kind, part), at, line, at - start + 1))
        if '\n' in match[0]:
            line += match[0].count('\n')
            start = at + match[0].rindex('\n') + 1
        at = match.end()
    return found, None


def statements_of(tokens):
    """The lists of tokens between the signs `;` that aren't empty, numbered from 1."""
    lists = [[]]
    for token in tokens:
        if token.kind == 'sign' and token.value == ';':
            lists.append([])
        else:
            lists[-1].append(token)
    return [Statement(number, it) for number, it in enumerate((it for it in lists if it), 1)]


def near(name, names):
    """The name among some that is most like it, if any is."""
    import difflib
    upper = {it.upper(): it for it in names}
    found = difflib.get_close_matches(name.upper(), list(upper), 1, 0.6)
    return upper[found[0]] if found else None


def shortened(text, limit=90):
    text = ' '.join(text.split())
    return text if len(text) <= limit else text[:limit - 3].rstrip() + '...'
