"""The lines of a topic file: which are records, and why one isn't a topic line, as docs/DIALECT.md has it."""
import json, math
from types import SimpleNamespace

from tokens import near


class Fraction(float):
    """A number that isn't written as a whole one."""


def whole(text):
    return Fraction(text) if text == '-0' else int(text)


def fraction(text):
    if math.isinf(float(text)):
        raise ValueError(f'the number {text[:20]} is too large for a float')
    return Fraction(text)


def constant(text):
    raise ValueError(f'{text} is not in JSON')


def read(text):
    return json.loads(text, parse_int=whole, parse_float=fraction, parse_constant=constant)


def depth(value):
    inner = value.values() if isinstance(value, dict) else value if isinstance(value, list) else None
    return 0 if inner is None else 1 + max(map(depth, inner), default=0)


def kind_of(value):
    names = {dict: 'an object', list: 'a list', str: 'a text', bool: 'a truth value', type(None): 'null', int: 'a whole number',
             Fraction: 'a fraction, or a number that is not written as a whole one'}
    return names[type(value)]


def lines_of(data):
    """The lines of a file, numbered from 1."""
    lines = data.split(b'\n')
    return list(enumerate(lines[:-1] if lines[-1] == b'' else lines, 1))


def is_blank(line):
    return not line.strip(b' \t\r')


def line_cause(line):
    """Why a line isn't a topic line, or None if it is one."""
    if line.startswith(b'\xef\xbb\xbf'):
        return 'it begins with a byte order mark: save the file as UTF-8 without one'
    if line.startswith((b'\xff\xfe', b'\xfe\xff')):
        return 'it is UTF-16: save the file as UTF-8'
    try:
        text = line.decode()
    except UnicodeDecodeError as fault:
        return f'it is not UTF-8 at byte {fault.start + 1}'
    try:
        value = read(text)
    except json.JSONDecodeError as fault:
        return f'it is not JSON at column {fault.colno}: {json_hint(text, fault)}'
    except (ValueError, RecursionError) as fault:
        return str(fault)
    if depth(value) > 127:
        return 'more than 127 lists and objects stand in one another'
    if not isinstance(value, dict):
        more = ': a file has one object a line, and no list around them' if isinstance(value, list) else ''
        return f'it is {kind_of(value)} and has to be an object{more}'
    return field_cause(value)


def json_hint(text, fault):
    rest = text[fault.pos:fault.pos + 1]
    if text.strip() in ('[', ']') or text.rstrip('\r').endswith(('},', '[')) and fault.pos >= len(text.rstrip('\r')) - 1:
        return 'a file has one object a line, without a list around them and commas between'
    if text.lstrip().startswith('{') and not text.rstrip().endswith('}') and fault.pos >= len(text.rstrip()):
        return 'the object does not end on this line: a record is one line (`jq -c .` writes it so)'
    if rest == "'":
        return 'texts and names stand in double quotes'
    if fault.msg.startswith('Extra data'):
        return 'more follows after the object: one record is one line'
    return fault.msg[0].lower() + fault.msg[1:]


def field_cause(value):
    """Why an object isn't a topic line by its fields, or None."""
    if 't' not in value:
        like = next((it for it in value if it.lower() in ('t', 'ts', 'time', 'timestamp', 'rowtime')), near('t', list(value)))
        return 'it has no field `t`, the time in milliseconds' + (f': `{like}` may be meant' if like else '')
    time, key = value['t'], value.get('k')
    if isinstance(time, bool) or not isinstance(time, int):
        return f'`t` is {kind_of(time)} and has to be a whole number of milliseconds'
    if not 0 <= time <= 2**53:
        return '`t` is below 0' if time < 0 else '`t` is above 2^53: milliseconds are meant'
    if not isinstance(key, (type(None), str, bool, int)):
        return f'`k` is {kind_of(key)} and has to be a text, a whole number or a truth value'
    if isinstance(key, int) and not -2**63 <= key < 2**63:
        return '`k` is a number of more than 64 bits'
    if not isinstance(value.get('v'), (type(None), dict, str)):
        return f'`v` is {kind_of(value["v"])} and has to be an object, a text or null'
    return None


def records_of(data):
    """The records of a file: line number, time, key and value of each; up to the first line that is none."""
    for number, line in lines_of(data):
        if is_blank(line):
            continue
        if line_cause(line):
            return
        value = read(line.decode())
        yield SimpleNamespace(line=number, time=value['t'], key=value.get('k'), value=value.get('v'))
