"""Which records of a topic file are skipped, and why; and which fields no column takes."""
import csv, re

from topic_lines import kind_of
from tokens import near

LIMITS = {'INTEGER': 2**31, 'BIGINT': 2**63}


def json_fault(value, type_):
    """Why a JSON value doesn't fit a type, or None."""
    is_whole = isinstance(value, int) and not isinstance(value, bool)
    if value is None:
        return None
    if type_ in LIMITS:
        if not is_whole:
            return f'{kind_of(value)} in a column of {type_}'
        return None if -LIMITS[type_] <= value < LIMITS[type_] else f'{value} is out of the range of {type_}'
    if type_ == 'BOOLEAN':
        return None if isinstance(value, bool) else f'{kind_of(value)} in a column of BOOLEAN'
    if not isinstance(value, (str, bool)) and not is_whole:
        return f'{kind_of(value)} in a column of VARCHAR'
    return 'a text of more than 65,536 bytes' if isinstance(value, str) and len(value.encode()) > 65536 else None


def key_fault(key, type_):
    is_whole = isinstance(key, int) and not isinstance(key, bool)
    fits = {'VARCHAR': isinstance(key, str), 'BOOLEAN': isinstance(key, bool)}.get(type_, is_whole)
    if not fits:
        return f'{kind_of(key)} as a key of {type_}'
    if type_ in LIMITS and not -LIMITS[type_] <= key < LIMITS[type_]:
        return f'{key} is out of the range of {type_}'
    return 'a text of more than 65,536 bytes' if type_ == 'VARCHAR' and len(key.encode()) > 65536 else None


def field_of(row, column):
    """The name of the field that a column takes, or None."""
    if column in row:
        return column
    like = sorted((it for it in row if ascii_upper(it) == column), key=str.encode)
    return like[0] if like else None


def ascii_upper(text):
    return ''.join(it.upper() if it.isascii() else it for it in text)


def text_fault(text, type_):
    if text == '':
        return None
    if type_ in LIMITS:
        if not re.fullmatch('-?[0-9]+', text, re.A):
            return f'{text[:40]!r} in a column of {type_}'
        return None if -LIMITS[type_] <= int(text) < LIMITS[type_] else f'{text} is out of the range of {type_}'
    return f'{text[:40]!r} in a column of BOOLEAN' if type_ == 'BOOLEAN' and text.lower() not in ('true', 'false') else None


def value_fault(one, value):
    """The field and the reason for which a value is no row of a relation, or None."""
    columns = {name: type_ for name, type_ in one.columns.items() if name not in one.keys}
    if one.format == 'JSON':
        if not isinstance(value, dict):
            return 'v', f'{kind_of(value)} in place of an object'
        for name, type_ in columns.items():
            field = field_of(value, name)
            fault = json_fault(value[field], type_) if field is not None else None
            if fault:
                return field, fault
        return None
    if not isinstance(value, str):
        return 'v', f'{kind_of(value)} in place of a text'
    rows = [it for it in csv.reader(value.splitlines(keepends=True)) if it]
    if len(rows) != 1:
        return 'v', f'{len(rows)} rows in place of one'
    if len(rows[0]) != len(columns):
        return 'v', f'{len(rows[0])} fields for {len(columns)} columns'
    faults = ((name, text_fault(text, type_)) for text, (name, type_) in zip(rows[0], columns.items()))
    return next((it for it in faults if it[1]), None)


def record_fault(one, record):
    """The field and the reason for which a record of a declared relation is skipped, or None."""
    if one.keys and record.key is not None:
        fault = key_fault(record.key, one.columns[one.keys[0]])
        if fault:
            return 'k', fault
    if one.is_table and record.key is None:
        return 'k', 'a record of a table without a key'
    if record.value is None:
        return None if one.is_table else ('v', 'a record of a stream without a value')
    return value_fault(one, record.value)


def loose_fields(one, record):
    """The fields of a record that no column takes, each with the column that is like it, if any."""
    if one.format != 'JSON' or not isinstance(record.value, dict):
        return {}
    taken = {field_of(record.value, name) for name in one.columns if name not in one.keys}
    free = [it for it in one.columns if it not in one.keys and field_of(record.value, it) is None]
    return {it: near(it, free) for it in record.value if it not in taken}
