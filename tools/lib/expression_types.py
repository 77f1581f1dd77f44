"""The types of expressions, as docs/DIALECT.md has them, and what breaks them."""
from expressions import text_of

AGGREGATES = ('COUNT', 'SUM', 'MIN', 'MAX', 'LATEST_BY_OFFSET', 'EARLIEST_BY_OFFSET')
FUNCTIONS = ('ABS', 'LEN', 'CONCAT', 'SUBSTRING', 'TRIM', 'UCASE', 'LCASE', 'COALESCE', 'IFNULL', 'NULLIF')
NUMBERS = ('INTEGER', 'BIGINT')
# what each function takes of each operand, the last for all that follow, and what it gives; 0 is its first operand's type
SIGNATURES = {'ABS': (['number'], 0), 'LEN': (['VARCHAR'], 'INTEGER'), 'CONCAT': (['VARCHAR'], 'VARCHAR'),
              'SUBSTRING': (['VARCHAR', 'number'], 'VARCHAR'), 'TRIM': (['VARCHAR'], 'VARCHAR'),
              'UCASE': (['VARCHAR'], 'VARCHAR'), 'LCASE': (['VARCHAR'], 'VARCHAR'), 'SUM': (['number'], 0),
              'MIN': (['number'], 0), 'MAX': (['number'], 0)}


class Mismatch(Exception):
    """Which expression has no type, and why."""


def fits(type_, wanted):
    return type_ in (None, 'NULL', wanted) or wanted == 'number' and type_ in NUMBERS


def are_alike(left, right):
    return left == right or {left, right} & {None, 'NULL'} or {left, right} <= {*NUMBERS}


def joined(types, say):
    """The one type of several results."""
    found = None
    for type_ in types:
        if type_ is None:
            return None
        if found and not are_alike(found, type_):
            raise Mismatch(say(f'has both {found} and {type_}'))
        found = type_ if found in (None, 'NULL') or type_ == 'BIGINT' else found
    return found


def type_of(expr, tokens, column):
    """The type of an expression; None where it isn't known. Raises Mismatch where it has none."""
    def say(why):
        return f'`{text_of(tokens, expr)}` {why}'

    def of(it):
        return type_of(it, tokens, column)

    def wants(it, wanted, of_what):
        type_ = of(it)
        if not fits(type_, wanted):
            raise Mismatch(say(f'gives {of_what} `{text_of(tokens, it)}`, which is {type_}, and it takes a {wanted}'))
        return type_

    kind, parts = expr.kind, expr.parts
    if kind == 'digits':
        return 'INTEGER' if parts[0] <= 2147483647 else 'BIGINT'
    if kind in ('text', 'null', 'truth'):
        return {'text': 'VARCHAR', 'null': 'NULL', 'truth': 'BOOLEAN'}[kind]
    if kind == 'name':
        return column(*parts)
    if kind == 'sign':
        return wants(parts[0], 'number', 'a sign')
    if kind == 'binary':
        return binary(parts, of, wants, say)
    if kind in ('not', 'isnull', 'like'):
        wanted = {'not': 'BOOLEAN', 'like': 'VARCHAR'}.get(kind)
        of(parts[0]) if wanted is None else wants(parts[0], wanted, kind.upper())
        return 'BOOLEAN'
    if kind in ('between', 'in'):
        for it in parts[1:]:
            if not are_alike(of(parts[0]), of(it)):
                raise Mismatch(say(f'compares {of(parts[0])} with {of(it)}'))
        return 'BOOLEAN'
    if kind == 'cast':
        if of(parts[0]) == 'BOOLEAN' and parts[1] in NUMBERS:
            raise Mismatch(say(f'casts BOOLEAN to {parts[1]}, which there is no rule for'))
        if of(parts[0]) in NUMBERS and parts[1] == 'BOOLEAN':
            raise Mismatch(say('casts a number to BOOLEAN, which there is no rule for'))
        return parts[1]
    if kind == 'case':
        for condition, _ in parts[1]:
            if parts[0] is None:
                wants(condition, 'BOOLEAN', 'WHEN')
            elif not are_alike(of(parts[0]), of(condition)):
                raise Mismatch(say(f'compares {of(parts[0])} with {of(condition)}'))
        return joined([of(it) for _, it in parts[1]] + ([of(parts[2])] if parts[2] else []), say)
    return call(parts[0].upper(), parts[1], of, wants, say)


def binary(parts, of, wants, say):
    operator, left, right = parts
    if operator in ('AND', 'OR', '||', '-', '*', '/', '%'):
        wanted = 'BOOLEAN' if operator in ('AND', 'OR') else 'VARCHAR' if operator == '||' else 'number'
        types = wants(left, wanted, operator), wants(right, wanted, operator)
        return wanted if wanted != 'number' else 'BIGINT' if 'BIGINT' in types else None if None in types else 'INTEGER'
    one, other = of(left), of(right)
    if not are_alike(one, other):
        raise Mismatch(say(f'has {operator} between {one} and {other}'))
    if operator == '+':
        if 'BOOLEAN' in (one, other):
            raise Mismatch(say('adds BOOLEAN'))
        return joined([one, other], say)
    if operator not in ('=', '<>') and 'BOOLEAN' in (one, other):
        raise Mismatch(say('puts BOOLEAN in an order'))
    return 'BOOLEAN'


def call(name, args, of, wants, say):
    if name == 'COUNT':
        return 'BIGINT'
    if name in SIGNATURES and args and args != ['*']:
        wanted, given = SIGNATURES[name]
        types = [wants(it, wanted[min(n, len(wanted) - 1)], name) for n, it in enumerate(args)]
        return types[0] if given == 0 else given
    if name in ('COALESCE', 'IFNULL'):
        return joined([of(it) for it in args], say)
    if name in ('NULLIF', 'LATEST_BY_OFFSET', 'EARLIEST_BY_OFFSET') and args and args != ['*']:
        return of(args[0])
    return None
