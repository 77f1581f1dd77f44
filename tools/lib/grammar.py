"""The grammar of docs/DIALECT.md: a statement's tokens to its tree, or the token at which it isn't spelled."""
from types import SimpleNamespace

from expressions import ExpressionParser

UNITS = {'DAY': 86400000, 'HOUR': 3600000, 'MINUTE': 60000, 'SECOND': 1000, 'MILLISECOND': 1}
UNITS.update({unit + 'S': size for unit, size in UNITS.items()})


class StatementParser(ExpressionParser):
    def statement(self):
        self.needs('CREATE')
        made = SimpleNamespace(is_table=self.needs('STREAM', 'TABLE') == 'TABLE', name=self.name(), columns=None, props=[],
                               select=None)
        if self.takes('('):
            made.columns = self.several(self.column)
            self.needs(')')
            self.needs('WITH')
            made.props = self.properties()
        else:
            if self.takes('WITH'):
                made.props = self.properties()
            self.needs('AS')
            made.select = self.query()
        if self.at < len(self.tokens):
            self.fails('the end of the statement, or a further part of it')
        return made

    def column(self):
        name, type_ = self.name(), self.type()
        mark = self.takes('KEY', 'PRIMARY')
        if mark == 'PRIMARY':
            self.needs('KEY')
        return name, type_, mark

    def properties(self):
        self.needs('(')
        found = self.several(self.property)
        self.needs(')')
        return found

    def property(self):
        name = self.name()
        self.needs('=')
        token = self.tokens[self.at] if self.at < len(self.tokens) else None
        if not token or token.kind not in ('text', 'digits'):
            self.fails('a text in single quotes', 'digits')
        self.at += 1
        return name, token.kind, token.value

    def query(self):
        self.needs('SELECT')
        made = SimpleNamespace(items=self.several(self.item), join=None, window=None, where=None, group=[], partition=None,
                               having=None)
        self.needs('FROM')
        made.source = self.source()
        kind = self.takes('INNER', 'LEFT', 'FULL')
        if kind in ('LEFT', 'FULL'):
            self.takes('OUTER')
        if kind or self.sees('JOIN'):
            self.needs('JOIN')
            source = self.source()
            self.needs('ON')
            made.join = (kind or 'INNER', source, self.expr())
        made.window = self.window() if self.takes('WINDOW') else None
        made.where = self.expr() if self.takes('WHERE') else None
        if self.takes('GROUP'):
            self.needs('BY')
            made.group = self.several(self.expr)
        if self.takes('PARTITION'):
            self.needs('BY')
            made.partition = self.expr()
        made.having = self.expr() if self.takes('HAVING') else None
        if self.takes('EMIT'):
            self.needs('CHANGES')
        return made

    def item(self):
        if self.takes('*'):
            return 'star', None, None
        if self.is_name() and self.sees('.', ahead=1) and self.sees('*', ahead=2):
            self.at += 3
            return 'star', self.tokens[self.at - 3].value, None
        expr = self.expr()
        return 'one', expr, self.name() if self.takes('AS') or self.is_name() else None

    def source(self):
        name = self.name()
        return name, self.name() if self.takes('AS') or self.is_name() else name

    def window(self):
        kind = self.needs('TUMBLING', 'HOPPING')
        self.needs('(')
        self.needs('SIZE')
        made = SimpleNamespace(kind=kind, size=self.span(), advance=None, retention=None, grace=None)
        if kind == 'HOPPING':
            self.needs(',')
            self.needs('ADVANCE')
            self.needs('BY')
            made.advance = self.span()
        if self.sees(',') and self.sees('RETENTION', ahead=1):
            self.at += 2
            made.retention = self.span()
        if self.takes(','):
            self.needs('GRACE')
            self.needs('PERIOD')
            made.grace = self.span()
        self.needs(')')
        return made

    def span(self):
        return self.of_kind('digits', 'digits') * UNITS[self.needs(*UNITS)]


def parse(tokens):
    """A statement's tree; or Unspelled."""
    return StatementParser(tokens).statement()
