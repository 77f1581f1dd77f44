"""The program, its words, and where things are."""
import os, re, subprocess
from types import SimpleNamespace

HOME = os.path.dirname(os.path.dirname(os.path.dirname(os.path.realpath(__file__))))
KSQL = f'{HOME}/ksql'


def words_of(words):
    """What the words of a command say: its name and its options, as far as they are spelled."""
    said = SimpleNamespace(command=words[0] if words else None, script=None, topics='.', workers='1', schedule=None, others=[])
    rest = list(words[1:])
    while rest:
        name, _, value = rest.pop(0).partition('=')
        if name in ('--script', '--topics', '--workers', '--schedule'):
            setattr(said, name[2:], value or (rest.pop(0) if rest else ''))
        elif name != '--trace':
            said.others.append(name)
    return said


def run(*words, folder='.', plain=True):
    """Runs ksql by its script: the status, and what it writes on standard output."""
    ran = subprocess.run([KSQL, *words], cwd=folder, stdin=subprocess.DEVNULL, stdout=subprocess.PIPE,
                         env={**os.environ, 'KSQL_PLAIN': '1'} if plain else None)
    return ran.returncode, ran.stdout.decode('utf-8', 'replace')


def section(*words):
    """The section of docs/ERRORS.md whose heading has one of some words, or the page."""
    try:
        headings = re.findall(r'(?m)^#{2,4} (.*)$', open(f'{HOME}/docs/ERRORS.md').read())
    except OSError:
        headings = []
    anchors = [re.sub(r'[^\w\- ]', '', it.lower()).strip().replace(' ', '-') for it in headings]
    for word in words:
        for anchor in anchors:
            if word.lower() in anchor:
                return f'docs/ERRORS.md#{anchor}'
    return 'docs/ERRORS.md'
