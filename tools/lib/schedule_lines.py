"""Why a line of a schedule is refused, as docs/DIALECT.md has it."""
import re

from tokens import near

STEPS = {'feed': '`feed all`, or `feed TOPIC N`', 'round': '`round`, or `round lose WORKER`', 'start': '`start WORKER`',
         'stop': '`stop WORKER`', 'lose': '`lose TASK`, as `lose 1_0`', 'drain': '`drain`'}


def step_cause(line, topics):
    """What of a line is no step."""
    try:
        text = line.decode()
    except UnicodeDecodeError:
        return 'it is not UTF-8'
    if text.endswith('\r'):
        return 'it ends with a carriage return: save the file with line feeds alone'
    if text.startswith('\ufeff'):
        return 'it begins with a byte order mark: save the file without one'
    if text != text.strip(' \t'):
        return 'a blank stands at its beginning or end'
    if re.search('[ \t][ \t]', text):
        return 'words are parted by one blank'
    words = re.split('[ \t]', text)
    first = words[0]
    if first not in STEPS:
        like = near(first, list(STEPS))
        why = f'`{like}` may be meant' if like else 'the words are ' + ', '.join(STEPS)
        why = 'words are in small letters' if first.lower() in STEPS else why
        return f'`{first[:30]}` is no step: {why}'
    return words_cause(first, words[1:], topics) or f'it has to be {STEPS[first]}'


def words_cause(first, words, topics):
    if first == 'feed' and words != ['all']:
        if len(words) % 2:
            return f'a number is missing after the topic {words[-1]}: `feed {words[-1]} N`, or `feed all`'
        names, counts = words[::2], words[1::2]
        wrong = next((it for it in counts if not re.fullmatch('[0-9]+', it, re.A)), None)
        if wrong is not None:
            return f'`{wrong}` is no number of records: decimal digits, 0 to 200000'
        if any(int(it) > 200000 for it in counts):
            return 'a number of records is 0 to 200000'
        twice = [it for it in names if names.count(it) > 1]
        return f'the topic {twice[0]} stands twice' if twice else None
    if first in ('start', 'stop') or first == 'round' and words[:1] == ['lose']:
        worker = words[-1] if len(words) > (first == 'round') else ''
        if re.fullmatch('[0-9]+', worker) and not 1 <= int(worker) <= 9999:
            return f'{worker} is no worker: they are 1 to 9999'
    if first == 'lose' and words and not re.fullmatch('[0-9]+_[0-9]+', words[0]):
        return f'`{words[0]}` is no task: a task is called by its sub-topology and partition, as 1_0; `round lose WORKER` loses a worker'
    return None


def refusal_cause(why, line, topics, workers):
    """The likeliest cause of a refusal of a schedule's line."""
    words = line.decode('utf-8', 'replace').split()
    if why == 'BadStep':
        return step_cause(line, topics)
    if why == 'UnknownTopic':
        wrong = next((it for it in words[1::2] if it not in topics), words[-1])
        like = near(wrong, topics)
        return f'no declared relation has the topic {wrong}: ' + (f'{like} may be meant' if like else 'they are ' + ', '.join(topics))
    if why == 'UnknownWorker':
        return f'worker {words[-1]} is not live: 1 to {workers} are at first (--workers), `start {words[-1]}` brings it'
    if why == 'WorkerTaken':
        return f'worker {words[-1]} is live already: 1 to {workers} are at first (--workers)'
    if why == 'UnknownTask':
        return f'the topology has no task {words[-1]}: `ksql explain` shows the sub-topologies, from 0, and their partitions, from 0'
    if why == 'NoWorker':
        return 'no worker is live: bring one by `start` before it'
    return 'a schedule has at most 1,048,576 bytes, 10,000 steps, 100,000 rounds, and 32 live workers'
