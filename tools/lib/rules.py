"""The likeliest cause of a refusal by a rule of kinds, keys, joins, aggregates, windows or properties, S9 to S16."""
import re
from collections import Counter

from causes import PROPERTIES, calls_in, parts_of, unknown_functions
from expression_types import AGGREGATES
from expressions import inner, text_of
from relations import key_expressions, shape
from tokens import near


def wrong_kind(one, earlier):
    if one.is_declared:
        return ('a table has PRIMARY KEY, and KEY is for streams' if one.is_table
                else 'a stream has KEY, and PRIMARY KEY is for tables')
    tables = [bool(it.relation and it.relation.is_table) for it in one.sources]
    if len(tables) == 2 and tables[0] and not tables[1]:
        return 'the stream has to stand on the left of the JOIN, and the table on its right'
    if len(tables) == 2 and one.select.join[0] == 'FULL' and not tables[0]:
        return 'a stream and a table have no FULL join: use LEFT'
    if one.select.partition and tables[0]:
        return 'a table has no PARTITION BY: GROUP BY gives a table with another key'
    if one.is_table:
        return 'a query of a stream without GROUP BY gives a stream: write CREATE STREAM'
    return 'a query with GROUP BY, or of a table, gives a table: write CREATE TABLE'


def key_missing(one, earlier):
    if one.is_declared:
        return 'a table needs a column with PRIMARY KEY'
    there = [shape(it) for kind, it, _ in one.select.items if kind == 'one']
    due = [it for it in key_expressions(one) if shape(it) not in there]
    words = [text_of(one.tokens, it) or it.parts[1] for it in due]
    return f'the items lack the key of the result: add {(" or " if one.select.join else " and ").join(words)}' if words else None


def join_not_on_key(one, earlier):
    table = one.sources[1].relation
    if not table:
        return None
    if one.select.join[2].kind != 'binary' or one.select.join[2].parts[0] != '=':
        return 'ON has to be one equation, `a = b`: further conditions go into WHERE'
    if len(table.keys) > 1:
        return f'{table.name} has several key columns: ON takes a table with one'
    key = f'{one.sources[1].alias}.{table.keys[0]}' if table.keys else 'the key of the right table'
    left = one.sources[0].relation
    if left and left.is_table:
        return (f'two tables are joined by their keys alone, and no foreign key: ON {one.sources[0].alias}.'
                f'{left.keys[0] if left.keys else ".."} = {key}; a table with another key is made by GROUP BY')
    return f'one side of ON has to be {key}, and the other of columns of {one.sources[0].alias}'


def partition_mismatch(one, earlier):
    left, right = [it.relation for it in one.sources][:2]
    stream = left if not left.is_table else None
    made = f': CREATE STREAM .. WITH (PARTITIONS={right.partitions}) AS SELECT * FROM {left.name} first' if stream else ''
    return f'{left.name} and {right.name} have {left.partitions} and {right.partitions} partitions{made}'


def aggregate_misuse(one, earlier):
    select, unknown = one.select, unknown_functions(one)
    if unknown:
        return unknown[0]
    used = [(where, it) for where, it in calls_in(one) if it.parts[0].upper() in AGGREGATES]
    if select.having and not select.group:
        return 'HAVING needs GROUP BY: without it use WHERE'
    if used and not select.group:
        return f'{used[0][1].parts[0]} needs GROUP BY'
    if select.group and select.partition:
        return 'GROUP BY and PARTITION BY: GROUP BY alone makes the key'
    wrong = [(where, it) for where, it in used if where not in ('the items', 'HAVING')]
    if wrong:
        return f'{wrong[0][1].parts[0]} stands in {wrong[0][0]}: what is said of a group goes into HAVING'
    if select.group and not used:
        return 'GROUP BY needs an aggregate in the items or in HAVING, as COUNT(*)'
    if one.sources[0].relation and one.sources[0].relation.is_table:
        over = [it.parts[0] for _, it in used if it.parts[0].upper() not in ('COUNT', 'SUM')]
        if over:
            return f'{over[0]} is not over a table: a row that leaves a group can be taken away from COUNT and SUM alone'
    groups = [shape(it) for it in select.group]
    for where, part in parts_of(one):
        loose = where in ('the items', 'HAVING') and first_loose(part, groups)
        if loose:
            return f'{text_of(one.tokens, loose)} is in no aggregate and not in GROUP BY: add it there, or use LATEST_BY_OFFSET'
    return 'an aggregate stands in another one'


def first_loose(expr, groups):
    """A column outside of aggregates and of what is grouped by."""
    if shape(expr) in groups or expr.kind == 'call' and expr.parts[0].upper() in AGGREGATES:
        return None
    if expr.kind == 'name':
        return None if expr.parts[1] in ('WINDOWSTART', 'WINDOWEND') else expr
    return next((found for it in inner(expr) if (found := first_loose(it, groups))), None)


def bad_window(one, earlier):
    window, source = one.select.window, one.sources[0].relation
    if not one.select.group:
        return 'WINDOW needs GROUP BY'
    if source and source.is_table:
        return 'a table has no windows: they are over streams'
    if window.size == 0 or window.advance == 0:
        return 'a size and an advance are above 0'
    if window.advance and window.advance > window.size:
        return 'the advance is above the size'
    return 'RETENTION has to be at least the size and the grace together (without GRACE PERIOD that is 24 hours)'


def unsupported(one, earlier):
    sources = [it.relation for it in one.sources]
    if one.is_declared:
        return 'it declares two key columns, and one is the most'
    windowed = next((it for it in sources if it and it.is_windowed), None)
    if windowed:
        return f'{windowed.name} has windows, and such a table is no source: put what is asked of it into the query that makes it'
    if len(sources) == 2 and one.sources[0].name == one.sources[1].name:
        return 'a relation is joined with itself'
    if len(sources) == 2 and all(it and not it.is_table for it in sources):
        return f'two streams are joined: make a table of {one.sources[1].name} by GROUP BY and LATEST_BY_OFFSET, and join that'
    return next(iter(unknown_functions(one)), None)


def bad_property(one, earlier):
    found, kinds = one.tree.props, {'PARTITIONS': 'digits', 'REPLICAS': 'digits'}
    twice = [name for name, count in Counter(name.upper() for name, _, _ in found).items() if count > 1]
    if twice:
        return f'{twice[0]} is given twice'
    for name, kind, value in found:
        name = name.upper()
        if name not in PROPERTIES:
            like = near(name, PROPERTIES)
            more = f'{like} may be meant' if like else 'the time of a record is its `t`' if name == 'TIMESTAMP' else 'leave it out'
            return f'there is no property {name} here: {more}'
        if kind != kinds.get(name, 'text'):
            return f'{name} is ' + ('digits without quotes' if name in kinds else 'a text in single quotes')
        if name == 'VALUE_FORMAT' and value.upper() not in ('JSON', 'DELIMITED'):
            return f"there is no format {value}: 'JSON' and 'DELIMITED' are"
        if name == 'KEY_FORMAT' and value.upper() != 'KAFKA':
            return f"there is no key format {value}: 'KAFKA' is, or leave it out"
        if name == 'KAFKA_TOPIC' and (not re.fullmatch('[A-Za-z0-9._-]{1,249}', value) or value in ('.', '..')):
            return f'{value!r} is no name of a topic: 1 to 249 ASCII letters, digits, `.`, `_` and `-`'
        if name == 'PARTITIONS' and value == 0:
            return 'PARTITIONS is 1 to 64'
    if one.is_declared and one.topic is None:
        return f"a declaration needs KAFKA_TOPIC, as WITH (KAFKA_TOPIC='{one.name.lower()}')"
    return 'DELIMITED needs a column beside the key' if one.format == 'DELIMITED' else None
