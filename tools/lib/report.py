"""A report's lines by relation."""
from types import SimpleNamespace

HEADS = ('stream ', 'table ', 'windowed ')


def relations_of(report):
    """For each relation of a report: its head line, its name, its changes and its rows, as lines."""
    found = []
    for line in report.splitlines():
        if line.startswith(HEADS):
            found.append(SimpleNamespace(head=line, name=line.split()[1], changes=[], rows=[]))
        elif found and line.startswith('{'):
            found[-1].changes.append(line)
        elif found and line.startswith('row '):
            found[-1].rows.append(line[4:])
        elif line == 'trace':
            break
    return found
