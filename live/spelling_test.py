#!/usr/bin/python3
"""spelling_test.py: spelled keys are visible letters, keep the order of the keys' bytes, and can be read again. A spelling that does not is seen."""
import random
import string
import sys

from spelling import read_key, spell_key

LETTERS = [chr(code) for code in range(0x30)] + list('az{|}~\x7f\x80\xff') + ['é', '漢', '\U0001f512']


def faults(spell, read, keys):
    spelled = {key: spell(key) for key in keys}
    for key, word in spelled.items():
        if not word or any(letter not in string.printable[:94] for letter in word):
            yield f'{key!r} is spelled {word!r}, which is not of visible letters'
        elif read(word) != key:
            yield f'{key!r} is read again as {read(word)!r}'
    ordered = sorted(keys, key=str.encode)
    for lesser, greater in zip(ordered, ordered[1:]):
        if not spelled[lesser] < spelled[greater]:
            yield f'{lesser!r} is before {greater!r}, and {spelled[lesser]!r} is not before {spelled[greater]!r}'


def run():
    """Whether no key is spelled wrongly, and each wrong spelling is seen."""
    rnd = random.Random(7)
    keys = {''.join(rnd.choices(LETTERS, k=rnd.randint(1, 2))) for _ in range(20000)}
    found = list(faults(spell_key, read_key, keys))
    wrong = {
        'as it is': lambda key: key,
        'in hexadecimal without its first byte': lambda key: key.encode().hex()[2:] or '0',
        'with one sign for all bytes that are no letters': lambda key: ''.join(chr(b) if 0x22 <= b <= 0x7D else f'~{b:02X}' for b in key.encode()),
    }
    unseen = [name for name, spell in wrong.items() if not any(True for _ in faults(spell, read_key_or_none, keys))]
    for fault in found[:10]:
        print(fault)
    for name in unseen:
        print(f'a key that is spelled {name} is not seen')
    print(f'{len(keys)} keys, {len(found)} faults; {len(wrong) - len(unseen)} of {len(wrong)} wrong spellings were seen')
    return not found and not unseen


def read_key_or_none(word):
    try:
        return read_key(word)
    except ValueError:
        return None


if __name__ == '__main__':
    sys.exit(not run())
