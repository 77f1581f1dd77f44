"""Tests of what is said after a refusal: each kind, by its likeliest cause."""
import os

from trial import GIVEN, folder, has, ksql, same, tests_of

STATEMENTS = {
    'CREATE STREAM X AS SELECT FROM S;': 'an item is missing before FROM',
    'CREATE STREAM X AS SELECT ID, 9223372036854775808 AS A FROM S;': 'is above 9223372036854775807',
    'CREATE STREAM X AS SELECT * FROM SS;': 'S may be meant',
    'CREATE STREAM S AS SELECT * FROM S;': 'statement 1 has made S already',
    'CREATE STREAM X AS SELECT ID, NN FROM S;': 'line 3, column 31: there is no column NN in S: N may be meant',
    'CREATE STREAM X AS SELECT ID FROM S JOIN T ON S.ID = T.ID;': 'write S.ID or T.ID',
    'CREATE STREAM X AS SELECT ID, N AS A, N AS A FROM S;': 'A is the name of two columns',
    'CREATE STREAM X AS SELECT ID, N + ID AS A FROM S;': '`N + ID` has + between INTEGER and VARCHAR',
    'CREATE TABLE X AS SELECT ID, N FROM S;': 'write CREATE STREAM',
    'CREATE STREAM X AS SELECT N FROM S;': 'add ID',
    'CREATE STREAM X AS SELECT S.ID, V FROM S JOIN T ON S.ID = T.V;': 'one side of ON has to be T.ID',
    'CREATE TABLE X AS SELECT N, AVG(N) AS A FROM S GROUP BY N;': 'write SUM(x) / COUNT(x)',
    'CREATE TABLE X AS SELECT V, MIN(V) AS A FROM T GROUP BY V;': '',
    'CREATE TABLE X AS SELECT ID, COUNT(*) AS C FROM S WINDOW TUMBLING (SIZE 0 DAYS) GROUP BY ID;': 'are above 0',
    "INSERT INTO S VALUES ('a', 1);": 'records come from topic files',
    "CREATE STREAM IF NOT EXISTS X (A INT) WITH (KAFKA_TOPIC='x');": 'IF NOT EXISTS',
    "CREATE STREAM X (A DOUBLE) WITH (KAFKA_TOPIC='x');": 'no type DOUBLE',
    "CREATE STREAM X (A INT) WITH (KAFKA_TOPIC='x', TIMESTAMP='A');": 'no property TIMESTAMP',
    "CREATE STREAM X (A INT) WITH (KAFKA_TOPIC=\"x\");": 'a double quote begins no token',
    'CREATE STREAM X AS SELECT ID FROM S CREATE STREAM Y AS SELECT ID FROM S;': 'a `;` seems to be missing',
    'CREATE STREAM X AS SELECT ID FROM S EMIT FINAL;': 'no EMIT FINAL',
    'CREATE STREAM X AS SELECT ID FROM S ORDER BY ID;': 'no ORDER BY',
    'CREATE STREAM X AS SELECT ID, N AS GROUP FROM S;': 'GROUP is a reserved word',
    'CREATE STREAM X AS SELECT DISTINCT ID FROM S;': 'no DISTINCT',
}
LINES = {
    b'\xef\xbb\xbf{"t":1}': 'byte order mark', b'{"t":1,}': 'not JSON', b'{"T":1}': '`T` may be meant',
    b'{"t":"1"}': '`t` is a text', b'{"t":1.5}': '`t` is a fraction', b'[{"t":1}]': 'no list around them',
    b'{"t":1}{"t":2}': 'one record is one line', b'{"t":1},\n{"t":2}': 'without a list around them', b'{\n"t":1}': 'does not end on this line',
    b'{"t":1,"k":{}}': '`k` is an object', b'{"t":1,"v":3}': '`v` is a whole number', b'{"t":NaN}': 'NaN is not in JSON',
    b'{"t":1,"x":1e999}': 'too large for a float', b'\xff': 'not UTF-8', b'{"t":-1}': 'below 0', b'5': 'has to be an object',
}
STEPS = {
    'feed all\r\n': 'carriage return', ' drain': 'a blank stands', 'feed s': 'a number is missing', 'feed ss 1': 's may be meant',
    'feed s x': 'no number of records', 'feed s 1 s 2': 'stands twice', 'Feed all': 'small letters', 'fed all': '`feed` may be meant',
    'round lose 7': 'worker 7 is not live', 'start 0': 'they are 1 to 9999', 'start 1': 'is live already', 'lose 9_9': 'no task 9_9',
    'lose 1': 'is no task', 'stop 1\ndrain': 'no worker is live', 'feed  all': 'one blank', 'drain 3': 'it has to be `drain`',
}


def it_explains_statements():
    for statement, cause in STATEMENTS.items():
        with folder(a__sql=GIVEN + statement) as path:
            status, out, error = ksql('explain', '--script', 'a.sql', cwd=path)
            same(status, 3)
            has(error, '  a.sql:3:1: statement 3: ' + statement[:20])
            has(error, cause)
            has(error, 'more: docs/ERRORS.md#' + '-'.join(out.decode().split()[-2:]).lower())


def it_counts_statements_as_the_lexer_does():
    text = "-- a; b\n/* ;\n */ ; ;\nCREATE STREAM S (A VARCHAR) WITH (KAFKA_TOPIC='s;');\n\n  DROP X"
    with folder(a__sql=text) as path:
        has(ksql('explain', '--script', 'a.sql', cwd=path)[2], 'a.sql:6:3: statement 2: DROP X')


def it_explains_lines_of_topics():
    for line, cause in LINES.items():
        with folder(a__sql=GIVEN, s__jsonl=b'{"t":0}\n' + line, t__jsonl='') as path:
            status, _, error = ksql('run', '--script', 'a.sql', cwd=path)
            same(status, 4)
            has(error, './s.jsonl:2: ')
            has(error, cause)


def it_explains_steps():
    for step, cause in STEPS.items():
        with folder(a__sql=GIVEN, s__jsonl='', t__jsonl='', steps=step) as path:
            status, _, error = ksql('run', '--script', 'a.sql', '--schedule', 'steps', cwd=path)
            same((step, status), (step, 5))
            has(error, cause)


def it_explains_files_that_are_missing():
    with folder(script__sql=GIVEN) as path:
        has(ksql('run', '--script', 'scrpt.sql', cwd=path)[2], 'script.sql is meant')
        has(ksql('run', '--script', 'no/script.sql', cwd=path)[2], 'there is no folder no')
        os.makedirs(f'{path}/topics')
        open(f'{path}/topics/s.jsonl', 'w').close()
        has(ksql('run', '--script', 'script.sql', cwd=path)[2], '`--topics topics` is meant')


def it_explains_words():
    for words, cause in {'runn': 'run may be meant', 'run --scrip x': '--script may be meant', 'run': '--script FILE is missing',
                         'demo': 'demo takes one number', 'demo 5 --workers 40': 'from 1 to 32'}.items():
        status, out, error = ksql(*words.split())
        same((status, out), (2, b'ksql: bad command line\n'))
        has(error, cause)


def tests():
    return tests_of(globals())
