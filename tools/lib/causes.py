"""The likeliest cause of each refusal of a script, S2 to S16, from the statement and those before it."""
from collections import Counter

from expression_types import AGGREGATES, FUNCTIONS, Mismatch, type_of
from expressions import everywhere, text_of
from relations import expression_type, homes, items_of, named_type
from tokens import near

MADE = ('ROWTIME', 'ROWKEY', 'WINDOWSTART', 'WINDOWEND')
INSTEAD = {'AVG': 'write SUM(x) / COUNT(x)', 'FLOOR': 'numbers are whole already', 'ROUND': 'numbers are whole already',
           'UPPER': 'write UCASE', 'LOWER': 'write LCASE', 'LENGTH': 'write LEN', 'SUBSTR': 'write SUBSTRING',
           'COUNT_DISTINCT': 'GROUP BY that column first, and count in a second query', 'LATEST': 'write LATEST_BY_OFFSET',
           'EARLIEST': 'write EARLIEST_BY_OFFSET', 'NVL': 'write IFNULL', 'AS_VALUE': 'a second item with the key is a value'}
PROPERTIES = ('KAFKA_TOPIC', 'VALUE_FORMAT', 'PARTITIONS', 'KEY_FORMAT', 'REPLICAS')


def parts_of(one):
    """Each whole expression of a query, with what it is."""
    select = one.select
    found = [('the items', it) for kind, it, _ in select.items if kind == 'one']
    found += [('ON', select.join[2])] if select.join else []
    found += [('GROUP BY', it) for it in select.group]
    found += [(name, it) for name, it in (('WHERE', select.where), ('PARTITION BY', select.partition), ('HAVING', select.having)) if it]
    return found


def names_in(one):
    return [it for _, part in parts_of(one) for it in everywhere(part) if it.kind == 'name']


def calls_in(one):
    return [(where, it) for where, part in parts_of(one) for it in everywhere(part) if it.kind == 'call']


def unknown_functions(one):
    found = [it.parts[0].upper() for _, it in calls_in(one) if it.parts[0].upper() not in AGGREGATES + FUNCTIONS]
    like = [INSTEAD.get(it) or (near(it, AGGREGATES + FUNCTIONS) or '') and f'{near(it, AGGREGATES + FUNCTIONS)} may be meant'
            for it in found]
    return [f'there is no function {name}' + (f': {it}' if it else '') for name, it in zip(found, like)]


def place_in(one, expr):
    token = one.tokens[expr.first]
    return f'line {token.line}, column {token.column}'


def too_large(one, earlier):
    limits = [(len(one.tokens) > 2000, 'it has more than 2,000 tokens'), (one.number > 200, 'a script has at most 200 statements')]
    limits += [(it.kind == 'digits' and it.value > 9223372036854775807, f'{it.text} is above 9223372036854775807') for it in one.tokens]
    limits += [(it.kind in ('word', 'name') and len(it.value.encode()) > 128, 'a name has more than 128 bytes') for it in one.tokens]
    if one.tree:
        limits += [(len(one.columns) > 64, f'it has {len(one.columns)} columns, and 64 are the most'),
                   (isinstance(one.partitions, int) and one.partitions > 64, f'{one.partitions} partitions, and 64 are the most')]
    if one.tree and one.select:
        window = one.select.window
        limits += [(len(one.select.group) > 8, 'GROUP BY has more than 8 expressions')]
        limits += [(window and window.advance and window.size > 64 * window.advance, 'a record would be in more than 64 windows')]
    return next((why for holds, why in limits if holds), 'the deepest nesting is 64, and a text has at most 65,536 bytes')


def unknown_relation(one, earlier, later):
    name = next((it.name for it in one.sources if not it.relation), None)
    if name == one.name:
        return f'{name} is the relation that this statement makes'
    after = next((it for it in later if it.name == name), None)
    if after:
        return f'{name} is made by statement {after.number}, which has to stand before this one'
    topic = next((it for it in earlier if (it.topic or '').upper() == name.upper()), None)
    like = topic.name if topic else near(name, [it.name for it in earlier])
    return f'no statement before makes {name}' + (f': {like} may be meant' if like else ': declare it by CREATE STREAM or CREATE TABLE')


def name_taken(one, earlier):
    same = next((it for it in earlier if it.name == one.name), None)
    if same:
        return f'statement {same.number} has made {one.name} already'
    same = next((it for it in earlier if it.topic == one.topic), None)
    return f'statement {same.number} has the topic {one.topic} already: {same.name} can be used in its place' if same else None


def unknown_column(one, earlier):
    for kind, it, _ in one.select.items:
        if kind == 'star' and it and it not in [source.alias for source in one.sources]:
            return f'{it}.* stands for no source: they are ' + ' and '.join(source.alias for source in one.sources)
    for it in names_in(one):
        qualifier, name = it.parts
        known = [source.alias for source in one.sources]
        if qualifier and qualifier not in known:
            named = [source for source in one.sources if source.name == qualifier]
            return (f'{place_in(one, it)}: no source is known as {qualifier}'
                    + (f', since it has the alias {named[0].alias}' if named else ': they are ' + ' and '.join(known)))
        found, is_known = homes(one, qualifier, name)
        if name == 'DISTINCT' and not found:
            return 'there is no DISTINCT: GROUP BY gives each value once'
        is_made = name == 'ROWTIME' and not (one.sources[0].relation and one.sources[0].relation.is_table) \
            or name in MADE[2:] and one.is_windowed or name == 'ROWKEY' and one.select.join and one.select.join[0] == 'FULL'
        if is_known and not found and not is_made:
            there = {column for source in one.sources if qualifier in (None, source.alias) for column in source.relation.columns}
            aliases = [alias for _, _, alias in one.select.items]
            like = near(name, there)
            return (f'{place_in(one, it)}: there is no column {name} in ' + ' or '.join(
                source.name for source in one.sources if qualifier in (None, source.alias))
                    + (f': {like} may be meant' if like else f": an item's alias is known to no other part" if name in aliases
                       else ': it has ' + ', '.join(sorted(there))))
    return None


def ambiguous_column(one, earlier):
    if len(one.sources) == 2 and one.sources[0].alias == one.sources[1].alias:
        return f'both sources are known as {one.sources[0].alias}: give one of them another alias'
    it = next((it for it in names_in(one) if not it.parts[0] and len(homes(one, None, it.parts[1])[0]) > 1), None)
    return it and f'{place_in(one, it)}: both sources have {it.parts[1]}: write ' + ' or '.join(
        f'{source.alias}.{it.parts[1]}' for source in one.sources)


def duplicate_column(one, earlier):
    names = [it[0] for it in (one.tree.columns if one.is_declared else items_of(one))]
    made = next((it for it in names if it in MADE), None)
    if made:
        return f'{made} is the name of what each row has already: give the column another name by AS'
    twice = [name for name, count in Counter(names).items() if count > 1]
    return twice and f'{twice[0]} is the name of two columns: give one of them another'


def mismatch(one, earlier):
    for where, it in parts_of(one):
        try:
            type_ = type_of(it, one.tokens, lambda qualifier, name: named_type(one, qualifier, name))
        except Mismatch as fault:
            return f'{place_in(one, it)}, in {where}: {fault}'
        if where in ('WHERE', 'HAVING') and type_ not in (None, 'NULL', 'BOOLEAN'):
            return f'{where} is {type_} and has to be BOOLEAN'
        if where == 'the items' and type_ == 'NULL':
            return f'{place_in(one, it)}: `{text_of(one.tokens, it)}` is always NULL: give it a type by CAST'
    if one.select.join and one.select.join[2].kind == 'binary':
        sides = [f'{text_of(one.tokens, it)} is {expression_type(one, it)}' for it in one.select.join[2].parts[1:]]
        return 'the sides of ON: ' + ', and '.join(sides)
    return None
