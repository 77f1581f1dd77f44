"""The likeliest cause of a statement that isn't spelled: at which token, and what is beyond this dialect."""
import grammar
from expressions import RESERVED, Unspelled
from tokens import near, place_of, shortened

WORDS = {
    'INSERT': 'records come from topic files; none is inserted by a statement',
    'IF': 'IF NOT EXISTS is not in this dialect: leave it out, since each run begins with no relation',
    'REPLACE': 'OR REPLACE is not in this dialect: leave it out, since each run begins with no relation',
    'DOUBLE': 'there is no type DOUBLE: use BIGINT, for example in hundredths',
    'DECIMAL': 'there is no type DECIMAL: use BIGINT, for example in hundredths',
    'TIMESTAMP': 'there is no type TIMESTAMP and no property of that name: use BIGINT; the time of a record is its ROWTIME',
    'DATE': 'there is no type DATE: use BIGINT or VARCHAR', 'TIME': 'there is no type TIME: use BIGINT or VARCHAR',
    'BYTES': 'there is no type BYTES: use VARCHAR',
    'ARRAY': 'there is no type ARRAY: use one column for each element',
    'MAP': 'there is no type MAP: use one column for each key',
    'STRUCT': 'there is no type STRUCT: use one column for each field',
    'RIGHT': 'there is no RIGHT join: turn the sources round and use LEFT',
    'WITHIN': 'two streams are not joined here: join a stream and a table, or two tables',
    'SESSION': 'there is no session window: use TUMBLING or HOPPING',
    'FINAL': 'there is no EMIT FINAL: EMIT CHANGES shows each change, and the last of a window is what it ends with',
    'LIMIT': 'there is no LIMIT: a query goes on to the end of its topics',
    'HEADER': 'there are no headers of records', 'HEADERS': 'there are no headers of records',
    'ESCAPE': 'LIKE has no ESCAPE',
}
OTHERS = ('DROP TERMINATE PAUSE RESUME EXPLAIN SHOW LIST DESCRIBE PRINT SET UNSET DEFINE UNDEFINE ALTER ASSERT CONNECTOR').split()
TYPES = {'FLOAT': 'BIGINT', 'REAL': 'BIGINT', 'LONG': 'BIGINT', 'NUMERIC': 'BIGINT', 'NUMBER': 'BIGINT', 'SMALLINT': 'INTEGER',
         'TINYINT': 'INTEGER', 'CHAR': 'VARCHAR', 'TEXT': 'VARCHAR', 'BOOL': 'BOOLEAN', 'DATETIME': 'BIGINT', 'UUID': 'VARCHAR',
         'JSON': 'VARCHAR', 'BYTE': 'INTEGER'}
PARTS = ('FROM', 'JOIN', 'WINDOW', 'WHERE', 'GROUP', 'PARTITION', 'HAVING', 'EMIT')
SIGNS = {
    '"': 'a double quote begins no token: write names plain or in backquotes, and texts in single quotes',
    "'": 'a text begins here and has no closing single quote (a quote in a text is written twice)',
    '`': 'a name in backquotes begins here and has no closing one on its line, or is empty',
    '#': 'a comment begins with --', '[': 'there are no lists', '{': 'there are no braces', '!': 'write <> or !=, and NOT',
    ':': 'there are no casts by ::, use CAST(x AS type)', '&': 'write AND', '|': 'write OR, or || to join texts',
    '\ufeff': 'a byte order mark begins the file: save it as UTF-8 without one', '\u00a0': 'this blank is a no-break space',
}


def fault_cause(text, at):
    """Why no token begins at a place."""
    sign = text[at]
    line, column = place_of(text, at)
    if sign.isdigit() and sign.isascii():
        why = 'digits are followed by a letter: names begin with a letter, and there are no numbers as 1e5'
    elif sign in '\u2018\u2019\u201c\u201d':
        why = 'this is a curly quote: write single quotes'
    else:
        why = SIGNS.get(sign, 'this character stands only in texts, comments and backquotes')
    return f'line {line}, column {column}, {sign!r}: {why}'


def beyond_cause(statement):
    """What a statement asks for that this dialect doesn't have, by its words."""
    words = [it for it in statement.tokens if it.kind == 'word']
    first = statement.tokens[0]
    if first.kind == 'word' and first.value == 'SELECT':
        return 'it begins with SELECT: a query stands in CREATE STREAM .. AS or CREATE TABLE .. AS, and its report shows the rows'
    known = next((it for it in words if it.value in WORDS), None)
    if first.value in OTHERS:
        return f'{first.value} is a statement of a server: here a script has CREATE STREAM and CREATE TABLE alone'
    if known:
        return f'line {known.line}, column {known.column}: {WORDS[known.value]}'
    other = next((it for it in words if it.value in OTHERS), None)
    if other:
        return f'line {other.line}, column {other.column}: {other.text} is a word of ksqlDB beyond this dialect'
    if sum(it.value == 'JOIN' for it in words) > 1:
        return 'it joins more than two relations: join two in a query of their own, and then its result with the third'
    return None


def spelling_cause(statement):
    """At which token a statement isn't spelled, and what may be meant."""
    held = statement.tokens
    try:
        grammar.parse(held)
    except Unspelled as fault:
        if fault.at >= len(held):
            where, token = 'at its end', None
        else:
            token = held[fault.at]
            where = f'line {token.line}, column {token.column}, at `{shortened(token.text, 30)}`'
        wanted = ', '.join(fault.wanted[:-1]) + (' or ' if len(fault.wanted) > 1 else '') + fault.wanted[-1]
        return f'{where}: {guess(held, fault, token) or wanted + " is expected"}'
    return None


def guess(held, fault, token):
    """What may be meant where a statement isn't spelled, if that is one of the common faults."""
    at, before = fault.at, held[fault.at - 1] if fault.at else None
    later = [it for it in held[1:] if it.kind == 'word' and it.value == 'CREATE']
    if later and (not token or token.at >= later[0].at):
        return f'a `;` seems to be missing before the CREATE of line {later[0].line}'
    if not token:
        return "WITH (KAFKA_TOPIC='..') is missing" if 'WITH' in fault.wanted else None
    word = token.value if token.kind == 'word' else None
    after = held[at + 1].value if at + 1 < len(held) else None
    if at == 0 and (token.value, after) == ('/', '*'):
        return 'a comment begins here and has no closing */'
    if at == 0:
        return 'a statement begins with CREATE' + (f'; {token.text} may be meant so' if near(token.text, ['CREATE']) else '')
    if 'BOOLEAN' in fault.wanted and word:
        like = TYPES.get(word) or near(word, fault.wanted)
        return f'{token.text} is no type here' + (f': use {like}' if like else ': INTEGER, BIGINT, VARCHAR and BOOLEAN are')
    if before.value in ('VARCHAR', 'STRING') and token.value == '(':
        return 'VARCHAR takes no length'
    if word == 'NOT' and after == 'NULL':
        return 'a column has no NOT NULL'
    if 'a text in single quotes' in fault.wanted and word:
        return f"write the value in single quotes, as '{token.text}'"
    if before.value == ',' and (word == 'FROM' or token.value == ')'):
        return 'a comma too many stands before this'
    if word == 'FROM':
        return 'an item is missing before FROM' if before.value == 'SELECT' else 'the items before FROM do not end here'
    if word == 'SELECT':
        return 'AS is missing before SELECT' if 'AS' in fault.wanted else 'a query within a query: give it a CREATE of its own'
    if 'ORDER' in (word, before.value) or word in ('UNION', 'DISTINCT'):
        return f'there is no {"ORDER BY" if word not in ("UNION", "DISTINCT") else word}: a report goes by the order of consumption'
    if before.value == 'DISTINCT':
        return 'there is no DISTINCT: GROUP BY gives each value once'
    if before.value == '.' and token.kind == 'digits' or token.value == '.':
        return 'there are no fractions: use whole numbers, for example hundredths'
    if token.value == '=' and before.value == '=':
        return 'write one ='
    if before.value == 'AS' and word in RESERVED - {'SELECT'}:
        return f'{token.text} is a reserved word: as a name it stands in backquotes'
    if word in PARTS:
        return f'{word} is out of order: SELECT, FROM, JOIN, WINDOW, WHERE, GROUP BY, PARTITION BY, HAVING, EMIT CHANGES'
    if 'a name' in fault.wanted and word in RESERVED:
        return f'{token.text} is a reserved word: as a name it stands in backquotes'
    if word and near(word, [it for it in fault.wanted if it.isupper()]):
        return f'{near(word, [it for it in fault.wanted if it.isupper()])} may be meant'
    return None
