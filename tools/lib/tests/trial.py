"""What the tests share: a folder with files, commands in it, and the functions of a module that are tests."""
import os, subprocess, tempfile
from contextlib import contextmanager

from program import HOME, KSQL

GIVEN = '''CREATE STREAM S (ID VARCHAR KEY, N INTEGER) WITH (KAFKA_TOPIC='s');
CREATE TABLE T (ID VARCHAR PRIMARY KEY, V VARCHAR) WITH (KAFKA_TOPIC='t');
'''


def tests_of(names):
    """The functions of a module that begin with `it_`."""
    return [(name[3:], it) for name, it in names.items() if name.startswith('it_')]


@contextmanager
def folder(**files):
    """A folder with files; `a__b` is the file a.b."""
    with tempfile.TemporaryDirectory() as path:
        for name, text in files.items():
            data = text if isinstance(text, bytes) else text.encode()
            open(os.path.join(path, name.replace('__', '.')), 'wb').write(data)
        yield path


def ran(*words, cwd=None, stdin=b'', **environment):
    """Runs a command: the status, and its standard output and error as bytes."""
    ended = subprocess.run(words, cwd=cwd, input=stdin, capture_output=True, env={**os.environ, **environment}, timeout=60)
    return ended.returncode, ended.stdout, ended.stderr


def ksql(*words, cwd=None, stdin=b'', **environment):
    return ran(KSQL, *words, cwd=cwd, stdin=stdin, **environment)


def tool(name, *words, cwd=None, stdin=b''):
    status, out, error = ran(f'{HOME}/tools/{name}', *words, cwd=cwd, stdin=stdin)
    return status, out.decode(), error.decode()


def same(given, due):
    assert given == due, f'\n  given {given!r}\n  due   {due!r}'


def has(text, part):
    text = text.decode() if isinstance(text, bytes) else text
    assert part in text, f'\n  {part!r} is not in\n  {text!r}'
