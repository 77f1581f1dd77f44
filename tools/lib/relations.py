"""What the statements of a script make: relations with their columns, as far as it shows without the whole judgement."""
from types import SimpleNamespace

import grammar
import tokens
from expressions import Expression, Unspelled
from expression_types import Mismatch, type_of


def script_of(text):
    """The statements of a script, by their number the relation of each that is spelled, and where no token begins, if anywhere."""
    found, fault = tokens.tokens_of(text)
    statements, relations = tokens.statements_of(found), {}
    for it in statements:
        try:
            relations[it.number] = relation_of(it, grammar.parse(it.tokens), list(relations.values()))
        except Unspelled:
            pass
    return statements, relations, fault


def relation_of(statement, tree, earlier):
    """The relation of a statement, after earlier ones. A type is None where it isn't known."""
    props = {name.upper(): value for name, _, value in tree.props}
    made = SimpleNamespace(number=statement.number, tokens=statement.tokens, tree=tree, select=tree.select, name=tree.name,
                           is_table=tree.is_table, is_declared=tree.select is None, is_windowed=False, sources=[])
    if made.is_declared:
        made.columns = {name: type_ for name, type_, _ in tree.columns}
        made.keys = [name for name, _, mark in tree.columns if mark]
    else:
        made.sources = [source_of(it, earlier) for it in [tree.select.source, *[it[1] for it in [tree.select.join] if it]]]
        made.is_windowed = tree.select.window is not None
        items = items_of(made)
        made.columns = {name: type_ for name, type_, _ in items}
        due = [shape(it) for it in key_expressions(made)]
        made.keys = [name for name, _, item in items if item in due]
    left = made.sources[0].relation if made.sources else None
    made.topic = props.get('KAFKA_TOPIC', None if made.is_declared else made.name)
    made.format = str(props.get('VALUE_FORMAT', left.format if left else 'JSON')).upper()
    made.partitions = props.get('PARTITIONS', left.partitions if left else 1)
    return made


def source_of(source, earlier):
    return SimpleNamespace(name=source[0], alias=source[1], relation=next((it for it in earlier if it.name == source[0]), None))


def homes(made, qualifier, name):
    """The sources that have a column, and whether all of them are known."""
    among = [it for it in made.sources if qualifier in (None, it.alias)]
    return [it for it in among if it.relation and name in it.relation.columns], all(it.relation for it in among)


def named_type(made, qualifier, name):
    found, _ = homes(made, qualifier, name)
    if found:
        return found[0].relation.columns[name]
    return 'BIGINT' if name in ('ROWTIME', 'WINDOWSTART', 'WINDOWEND') else None


def expression_type(made, expr):
    """The type of an expression, or None where it isn't known or it has none."""
    try:
        return type_of(expr, made.tokens, lambda qualifier, name: named_type(made, qualifier, name))
    except Mismatch:
        return None


def items_of(made):
    """The columns of a result: the name, the type and the shape of each."""
    found, number = [], 0
    for kind, it, alias in made.select.items:
        if kind == 'star':
            for source in made.sources:
                if it in (None, source.alias) and source.relation:
                    prefix = f'{source.alias}_' if len(made.sources) > 1 else ''
                    found += [(prefix + name, type_, ('name', name)) for name, type_ in source.relation.columns.items()]
            continue
        if not alias and it.kind == 'name':
            qualifier, name = it.parts
            is_shared = len(made.sources) > 1 and len(homes(made, None, name)[0]) > 1
            alias = f'{qualifier}_{name}' if qualifier and is_shared else name
        elif not alias:
            alias, number = f'KSQL_COL_{number}', number + 1
        found.append((alias, expression_type(made, it), shape(it)))
    return found


def key_expressions(made):
    """The expressions that the key of a result has to be; one of them in a join, each of them else."""
    select, sources = made.select, made.sources
    if select.group:
        return select.group
    if select.partition:
        return [select.partition]
    if select.join and select.join[0] == 'FULL':
        return [Expression('name', (None, 'ROWKEY'), 0, 0)]
    if select.join:
        on = select.join[2]
        sides = list(on.parts[1:]) if on.kind == 'binary' and on.parts[0] == '=' else []
        of_right = [it for it in sides if it.kind == 'name' and it.parts[0] == sources[1].alias]
        return sides if select.join[0] == 'INNER' else [it for it in sides if it not in of_right]
    keys = sources[0].relation.keys if sources[0].relation else []
    return [Expression('name', (None, it), 0, 0) for it in keys]


def shape(expr):
    """An expression without places and aliases, so that equal ones are equal."""
    if expr.kind == 'name':
        return 'name', expr.parts[1]
    return (expr.kind, *[part_shape(it) for it in expr.parts])


def part_shape(part):
    if isinstance(part, Expression):
        return shape(part)
    if isinstance(part, (list, tuple)):
        return tuple(part_shape(it) for it in part)
    return part
