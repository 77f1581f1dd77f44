"""Tests of the tools beside ksql."""
import os, shutil

from program import HOME
from trial import GIVEN, folder, has, ran, same, tests_of, tool

SHOPS = f'{HOME}/examples/shops'


def it_says_how_each_tool_is_called():
    for name in ('skipped', 'from-kcat', 'from-csv', 'dot', 'same', 'changes', 'outputs', 'kit-crates', 'explain-refusal', 'tests'):
        status, out, _ = tool(name, '--help')
        same(status, 0)
        has(out, name)


def it_lists_what_is_skipped():
    lines = '{"t":1,"k":"a","v":{"n":"x"}}\n{"t":2,"k":3,"v":{"n":1}}\n{"t":3,"k":"a"}\n{"t":4,"v":{"nn":1}}\n'
    with folder(a__sql=GIVEN, s__jsonl=lines, t__jsonl='{"t":1,"k":"a","v":{"V":5}}\n{"t":2}\n') as path:
        status, out, _ = tool('skipped', 'a.sql', path, cwd=path)
        same(status, 0)
        for part in ('s.jsonl:1: n: a text', 's.jsonl:2: k: a whole number', 's.jsonl:3: v: ', 'field nn of 1 record', 'N may be meant',
                     't.jsonl:2: k: ', '4 records are skipped'):
            has(out, part)


def it_counts_skipped_records_as_the_report_does():
    for name in sorted(os.listdir(f'{HOME}/examples')):
        path = f'{HOME}/examples/{name}'
        report = ran(f'{HOME}/ksql', 'run', '--script', 'script.sql', cwd=path)[1].decode()
        due = sum(int(line.split('skipped=')[1].split()[0]) for line in report.splitlines() if 'skipped=' in line)
        has(tool('skipped', 'script.sql', cwd=path)[1], f'\n{due} records are skipped' if due else '0 records are skipped')


def it_makes_topic_lines_of_kcat():
    line = b'{"topic":"s","partition":0,"offset":0,"tstype":"create","ts":5,"key":"7","payload":"{\\"n\\":1}"}\n'
    same(tool('from-kcat', stdin=line)[1], '{"t":5,"k":"7","v":{"n":1}}\n')
    same(tool('from-kcat', '--key', 'number', '--value', 'text', stdin=line)[1], '{"t":5,"k":7,"v":"{\\"n\\":1}"}\n')
    same(tool('from-kcat', stdin=b'{"ts":5,"key":null,"payload":null}\n')[1], '{"t":5,"k":null,"v":null}\n')
    same(tool('from-kcat', stdin=b'{"ts":5,"payload":"x"}\n')[0], 1)


def it_makes_topic_lines_of_csv():
    rows = b'at,id,n\n1000,a,5\n1970-01-01T00:00:02Z,b,\n'
    same(tool('from-csv', '--time', 'at', '--key', 'id', '--numbers', 'n', stdin=rows)[1],
         '{"t":1000,"k":"a","v":{"n":5}}\n{"t":2000,"k":"b","v":{"n":null}}\n')
    same(tool('from-csv', '--time', 'x', stdin=rows)[0], 1)


def it_draws_topologies():
    text = ran(f'{HOME}/ksql', 'explain', '--script', 'script.sql', cwd=SHOPS)[1]
    status, out, _ = tool('dot', stdin=text)
    same((status, out.count('{'), out.count('subgraph')), (0, out.count('}'), text.decode().count('\nsub ')))
    has(out, 'ksql-ITEMS-aggregate-changelog')
    if shutil.which('dot'):
        has(tool('dot', '--svg', stdin=text)[1], '<svg')


def it_compares_schedules():
    same(tool('same', 'script.sql', '.', '5', cwd=SHOPS)[:2], (0, '5 schedules, 5 equal reports\n'))


def it_takes_changes_of_a_report():
    report = b'order 0\nstream A query c=1 changes=1\n{"p":0}\ntable B query c=1 changes=1 rows=1\n{"p":1}\nrow {"t":2}\nend\n'
    same(tool('changes', 'B', stdin=report)[1], '{"p":1}\n')
    same(tool('changes', 'B', '--rows', stdin=report)[1], '{"t":2}\n')
    same(tool('changes', 'C', stdin=report)[0], 1)


def it_finds_outputs_that_differ():
    page = ('# X\n## A\n```text a.txt\nb\nc\n```\n```console\n$ cat a.txt\n...\nc\n$ echo d\ne\n$ cd examples\n```\n'
            '## B\n```console\n$ ls a.txt\na.txt\n```\n')
    with folder(page__md=page) as path:
        status, out, _ = tool('outputs', f'{path}/page.md')
        same(status, 1)
        for part in ('-e\n', '+d\n', '4 outputs, 1 differ'):
            has(out, part)
        tool('outputs', '--write', f'{path}/page.md')
        same(open(f'{path}/page.md').read(), page.replace('\ne\n', '\nd\n'))


def it_has_a_manual_page():
    if shutil.which('man'):
        status, _, error = ran('man', '--warnings', '-E', 'UTF-8', '-l', '-Tutf8', '-Z', f'{HOME}/docs/ksql.1')
        same((status, error), (0, b''))


def it_completes_words():
    if shutil.which('bash'):
        text = f'. {HOME}/tools/completion.bash; COMP_WORDS=(ksql run --s); COMP_CWORD=2; _ksql; echo "${{COMPREPLY[*]}}"'
        same(ran('bash', '-c', text)[1], b'--script --schedule\n')


def tests():
    return tests_of(globals())
