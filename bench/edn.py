#!/usr/bin/env python3
"""edn.py < HISTORY.edn > TRANSCRIPT: turns a history of read-write registers, as Jepsen records it and Elle reads it, into a transcript.

Each committed transaction stands whole, where it completed: the order of completions is taken for the order of decisions. A map of the
history is `{:type :ok, :value [[:w :x 1] [:r :y nil]], ..}`; `:invoke` and `:fail` tell nothing. A transaction that ended with `:info` counts as
committed where another one read what it wrote. One member and one coordinator: member m1 has all registers. What the judge does not
take is refused with the number of the map, and nothing is written: another kind of operation, a key of over 32 bytes, a value of over 4,096.
"""
import re
import sys

TOKENS = re.compile(r'[\s,]+|;[^\n]*|("(?:\\.|[^"\\])*")|([\[\]{}()])|#[^\s\[\]{}(),"]*|([^\s\[\]{}(),"]+)')


class Refused(Exception):
    pass


def tokens(text):
    at = 0
    while at < len(text):
        found = TOKENS.match(text, at)
        if not found:
            raise Refused(f'no EDN at byte {at}')
        at = found.end()
        word = found.group(1) or found.group(2) or found.group(3)
        if word:
            yield word


def parse(words, word):
    """One value: a list for a vector or a list, a dict for a map, else its text."""
    if word in '([':
        found = []
        for next_word in words:
            if next_word in ')]':
                return found
            found.append(parse(words, next_word))
        raise Refused('a list has no end')
    if word == '{':
        found = []
        for next_word in words:
            if next_word == '}':
                return dict(zip(map(str, found[::2]), found[1::2]))
            found.append(parse(words, next_word))
        raise Refused('a map has no end')
    return word


def maps(text):
    words = tokens(text)
    for word in words:
        value = parse(words, word)
        for each in value if isinstance(value, list) else [value]:
            if not isinstance(each, dict):
                raise Refused('a history is made of maps')
            yield each


def spelled(word, most):
    """A word of visible letters as it is, and another one in hex behind a tilde."""
    plain = word[1:] if word.startswith(':') else word[1:-1] if word.startswith('"') else word
    data = plain.encode()
    text = plain if data and all(33 <= b <= 126 for b in data) and not plain.startswith('~') else '~' + data.hex()
    if len(text) > most:
        raise Refused(f'{word} has more than {most} bytes')
    return text


def operations(value):
    found = []
    for operation in value if isinstance(value, list) else []:
        if not isinstance(operation, list) or len(operation) != 3 or operation[0] not in (':r', ':w') or isinstance(operation[2], (list, dict)):
            raise Refused(f'{operation} is neither a read nor a write of a register')
        kind, key, told = operation
        found.append((kind, spelled(key, 32), None if told == 'nil' else spelled(told, 4096)))
    return found


def committed(history):
    """The transactions that count, in the order of their completions."""
    ended = []
    for number, each in enumerate(history, 1):
        if each.get(':type') in (':ok', ':info'):
            try:
                ended.append((each[':type'], operations(each.get(':value'))))
            except Refused as fault:
                raise Refused(f'map {number}: {fault}') from None
    read = {(key, told) for kind, done in ended if kind == ':ok' for what, key, told in done if what == ':r'}
    for kind, done in ended:
        if kind == ':ok' or any(what == ':w' and (key, told) in read for what, key, told in done):
            yield [each for each in done if kind == ':ok' or each[0] == ':w']


def transcript(history):
    lines = ['1 event members mv coords 1', '1 log m1 header 1', '1 log c1 header 1', '1 reply open']
    number = 1

    def event(what, *told):
        nonlocal number
        number += 1
        lines.append(f'{number} event {what}')
        lines.extend(f'{number} {each}' for each in told)

    for txn, done in enumerate(committed(history), 1):
        event(f'begin {txn} c1', 'reply begun')
        for kind, key, told in done:
            if kind == ':w':
                event(f'write {txn} m1 {key} {told}', 'reply done')
            else:
                event(f'read {txn} m1 {key}', 'reply missing' if told is None else f'reply got {told}')
        event(f'commit {txn}', f'log c1 commit {txn}', 'reply committed')
    return ''.join(line + '\n' for line in lines)


def main():
    try:
        sys.stdout.write(transcript(list(maps(sys.stdin.read()))))
    except Refused as fault:
        sys.exit(f'edn.py: {fault}')


if __name__ == '__main__':
    main()
