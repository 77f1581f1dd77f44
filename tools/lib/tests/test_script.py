"""Tests of the script `ksql`: its own words, statuses, signals, and that the program's output stays."""
import os, shutil, signal, subprocess, time

from program import KSQL
from trial import GIVEN, folder, has, ksql, same, tests_of


def it_prints_its_usage():
    parts = ('ksql run --script', 'ksql explain --script', 'ksql demo N', 'Exit statuses', 'docs/ERRORS.md')
    for words in (('--help',), ('run', '--help')):
        status, out, error = ksql(*words, KSQL_PROGRAM='/nowhere')
        same((status, error), (0, b''))
        for part in parts:
            has(out, part)
    # Here standard output is the program's own.
    for words in ((), ('-h',), ('help',)):
        status, out, error = ksql(*words, KSQL_PROGRAM='/nowhere')
        same((status, out), (2, b'ksql: bad command line\n'))
        for part in parts:
            has(error, part)


def it_prints_its_version():
    status, out, _ = ksql('--version', KSQL_PROGRAM='/nowhere')
    same(status, 0)
    has(out, 'ksql ')
    has(out, 'logic')


def it_gives_the_output_and_status_of_the_program():
    with folder(a__sql=GIVEN, b__sql='DROP X', s__jsonl='{"t":1}\n', t__jsonl='', u='drain\nx\n', bad__jsonl='') as path:
        os.makedirs(f'{path}/d')
        open(f'{path}/d/s.jsonl', 'w').write('[]\n')
        cases = {0: 'run --script a.sql', 2: 'run', 3: 'explain --script b.sql', 4: 'run --script a.sql --topics d',
                 5: 'run --script a.sql --schedule u', 6: 'run --script c.sql'}
        for status, words in cases.items():
            given, plain = ksql(*words.split(), cwd=path), ksql(*words.split(), cwd=path, KSQL_PLAIN='1')
            same(given[:2], plain[:2])
            same(given[0], status)
            same(plain[2], b'')
            same(bool(given[2]), bool(status))


def it_hands_the_standard_input_on():
    status, out, _ = ksql('explain', '--script', '/dev/stdin', stdin=GIVEN.encode())
    same((status, out[:6]), (0, b'subs=0'))


def it_passes_signals_on():
    with folder(slow='#!/bin/sh\nexec sleep 20\n') as path:
        os.chmod(f'{path}/slow', 0o755)
        for one in (signal.SIGTERM, signal.SIGINT, signal.SIGHUP):
            child = subprocess.Popen([KSQL, 'demo', '1'], env={**os.environ, 'KSQL_PROGRAM': f'{path}/slow'})
            time.sleep(0.3)
            below = subprocess.run(['ps', '-o', 'pid=', '--ppid', str(child.pid)], capture_output=True, text=True).stdout.split()
            child.send_signal(one)
            same(child.wait(10), -one)
            same([it for it in below if os.path.exists(f'/proc/{it}')], [])


def it_ends_by_the_signal_that_ended_the_program():
    with folder(killed='#!/bin/sh\nkill -KILL $$\n') as path:
        os.chmod(f'{path}/killed', 0o755)
        same(ksql('demo', '1', KSQL_PROGRAM=f'{path}/killed')[0], -9)


def it_runs_from_elsewhere():
    with folder(a__sql=GIVEN) as path:
        os.symlink(KSQL, f'{path}/linked')
        done = subprocess.run([f'{path}/linked', 'explain', '--script', 'a.sql'], cwd=path, capture_output=True)
        same(done.returncode, 0)


def it_says_nothing_where_a_reader_is_gone():
    if shutil.which('bash'):
        done = subprocess.run(['bash', '-c', f'"{KSQL}" demo 2000 --workers 2 | true'], capture_output=True)
        same(done.stderr, b'')


def tests():
    return tests_of(globals())
