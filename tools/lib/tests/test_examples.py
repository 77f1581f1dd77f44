"""Tests of the examples: each prints its report, with its schedule too, and its wrong script is refused as it says."""
import os

from program import HOME
from trial import ksql, same


def reports(path):
    def test():
        plain, words = ksql('run', '--script', 'script.sql', cwd=path), ['run', '--script', 'script.sql', '--workers', '2']
        same((plain[0], plain[2]), (0, b''))
        if os.path.exists(f'{path}/losses'):
            same(ksql(*words, '--schedule', 'losses', cwd=path), plain)
        if os.path.exists(f'{path}/report'):
            same(plain[1], open(f'{path}/report', 'rb').read())
    return test


def refusal(path):
    def test():
        given = ksql('run', '--script', 'wrong.sql', cwd=path)
        same((given[0], given[1]), (3, open(f'{path}/wrong.out', 'rb').read()))
    return test


def tests():
    names = sorted(it for it in os.listdir(f'{HOME}/examples') if os.path.exists(f'{HOME}/examples/{it}/script.sql'))
    found = [(f'the report of {it}', reports(f'{HOME}/examples/{it}')) for it in names]
    return found + [(f'the wrong script of {it}', refusal(f'{HOME}/examples/{it}')) for it in names
                    if os.path.exists(f'{HOME}/examples/{it}/wrong.sql')]
