"""The expressions of docs/DIALECT.md: tokens to a tree, or the token at which they aren't spelled."""
from collections import namedtuple

RESERVED = set('''CREATE STREAM TABLE AS SELECT FROM WHERE GROUP BY HAVING PARTITION WINDOW JOIN INNER LEFT RIGHT FULL OUTER ON
    WITH AND OR NOT NULL IS IN LIKE BETWEEN CASE WHEN THEN ELSE END CAST TRUE FALSE EMIT LIMIT WITHIN'''.split())
TYPES = {'INT': 'INTEGER', 'INTEGER': 'INTEGER', 'BIGINT': 'BIGINT', 'VARCHAR': 'VARCHAR', 'STRING': 'VARCHAR',
         'BOOLEAN': 'BOOLEAN'}

# an expression: its kind, its parts, and its first token and the one after its last, as numbers
Expression = namedtuple('Expression', 'kind parts first last')


class Unspelled(Exception):
    """The number of the token at which a statement isn't spelled, and what could stand there."""

    def __init__(self, at, wanted):
        self.at, self.wanted = at, wanted


class ExpressionParser:
    def __init__(self, tokens):
        self.tokens, self.at = tokens, 0

    def sees(self, *values, ahead=0):
        if self.at + ahead >= len(self.tokens):
            return False
        token = self.tokens[self.at + ahead]
        return token.kind in ('word', 'sign') and token.value in values

    def takes(self, *values):
        if self.sees(*values):
            self.at += 1
            return self.tokens[self.at - 1].value
        return None

    def needs(self, *values):
        return self.takes(*values) or self.fails(*values)

    def fails(self, *wanted):
        raise Unspelled(self.at, wanted)

    def of_kind(self, kind, wanted):
        if self.at < len(self.tokens) and self.tokens[self.at].kind == kind:
            self.at += 1
            return self.tokens[self.at - 1].value
        return self.fails(wanted)

    def is_name(self):
        token = self.tokens[self.at] if self.at < len(self.tokens) else None
        return bool(token) and (token.kind == 'name' or token.kind == 'word' and token.value not in RESERVED)

    def name(self):
        if not self.is_name():
            self.fails('a name')
        self.at += 1
        return self.tokens[self.at - 1].value

    def several(self, part):
        found = [part()]
        while self.takes(','):
            found.append(part())
        return found

    def type(self):
        return TYPES[self.needs(*TYPES)]

    def made(self, first, kind, *parts):
        return Expression(kind, parts, first, self.at)

    def chain(self, part, *operators):
        first, left = self.at, part()
        while operator := self.takes(*operators):
            left = self.made(first, 'binary', operator, left, part())
        return left

    def expr(self):
        return self.chain(lambda: self.chain(self.negation, 'AND'), 'OR')

    def negation(self):
        first = self.at
        if self.takes('NOT'):
            arg = self.negation()
            return self.made(first, 'not', arg)
        return self.predicate()

    def sum(self):
        return self.chain(lambda: self.chain(self.unary, '*', '/', '%'), '+', '-', '||')

    def predicate(self):
        first, left = self.at, self.sum()
        if operator := self.takes('=', '<>', '<', '<=', '>', '>='):
            right = self.sum()
            return self.made(first, 'binary', operator, left, right)
        if self.takes('IS'):
            self.takes('NOT')
            self.needs('NULL')
            return self.made(first, 'isnull', left)
        is_not = self.takes('NOT')
        if self.takes('BETWEEN'):
            low = self.sum()
            self.needs('AND')
            high = self.sum()
            return self.made(first, 'between', left, low, high)
        if self.takes('IN'):
            self.needs('(')
            choices = self.several(self.expr)
            self.needs(')')
            return self.made(first, 'in', left, *choices)
        if self.takes('LIKE'):
            self.of_kind('text', 'a text in single quotes')
            return self.made(first, 'like', left)
        return self.fails('BETWEEN', 'IN', 'LIKE') if is_not else left

    def unary(self):
        first = self.at
        if self.takes('-', '+'):
            arg = self.unary()
            return self.made(first, 'sign', arg)
        return self.primary()

    def primary(self):
        first, token = self.at, self.tokens[self.at] if self.at < len(self.tokens) else None
        if token and token.kind in ('digits', 'text'):
            self.at += 1
            return self.made(first, token.kind, token.value)
        if word := self.takes('TRUE', 'FALSE', 'NULL'):
            return self.made(first, 'null' if word == 'NULL' else 'truth')
        if self.takes('CAST'):
            self.needs('(')
            arg = self.expr()
            self.needs('AS')
            type_ = self.type()
            self.needs(')')
            return self.made(first, 'cast', arg, type_)
        if self.takes('CASE'):
            return self.case(first)
        if self.takes('('):
            inner = self.expr()
            self.needs(')')
            return inner
        if not self.is_name():
            self.fails('an expression')
        name = self.name()
        if self.takes('('):
            args = [] if self.sees(')') else ['*'] if self.takes('*') else self.several(self.expr)
            self.needs(')')
            return self.made(first, 'call', name, args)
        if self.takes('.'):
            column = self.name()
            return self.made(first, 'name', name, column)
        return self.made(first, 'name', None, name)

    def case(self, first):
        arg = None if self.sees('WHEN') else self.expr()
        whens, other = [], None
        while self.takes('WHEN') or not whens and self.fails('WHEN'):
            condition = self.expr()
            self.needs('THEN')
            whens.append((condition, self.expr()))
        if self.takes('ELSE'):
            other = self.expr()
        self.needs('END')
        return self.made(first, 'case', arg, whens, other)


def inner(expr):
    """The expressions that an expression has directly in it."""
    for part in expr.parts:
        for it in part if isinstance(part, list) else [part]:
            yield from (each for each in (it if isinstance(it, tuple) and not isinstance(it, Expression) else [it])
                        if isinstance(each, Expression))


def everywhere(expr):
    """An expression and all that are in it."""
    yield expr
    for it in inner(expr):
        yield from everywhere(it)


def text_of(tokens, expr):
    """An expression as it is written, with one blank where there are any."""
    return ''.join((' ' if n and it.at > before.at + len(before.text) else '') + it.text for n, (before, it) in
                   enumerate(zip([None, *tokens[expr.first:expr.last]], tokens[expr.first:expr.last])))
