"""Keys and values as the program can be told them, so that no client can end it with a letter or a length.

A key may have any bytes. It is spelled in visible letters, in an order that is the order of its bytes, so that a range of keys is a range of
spelled ones. A value is told by its digest: two answers are the same where their digests are.
"""
import hashlib

MOST_LETTERS = 32


def spell_key(key):
    """The key in visible letters. Bytes from 22 to 7d (hexadecimal) stand for themselves, lesser ones are `!` and two digits, greater ones `~` and two digits."""
    spelled = ''.join(chr(byte) if 0x22 <= byte <= 0x7D else f'{"!" if byte < 0x22 else "~"}{byte:02X}' for byte in key.encode())
    if not 1 <= len(spelled) <= MOST_LETTERS:
        raise ValueError(f'a key has 1 to {MOST_LETTERS} letters when it is spelled: {key!r} has {len(spelled)}')
    return spelled


def read_key(spelled):
    """The key that is spelled so."""
    found, place = bytearray(), 0
    while place < len(spelled):
        if spelled[place] in '!~':
            found.append(int(spelled[place + 1:place + 3], 16))
            place += 3
        else:
            found.append(ord(spelled[place]))
            place += 1
    return found.decode()


def spell_value(value):
    """The value's digest: 128 bits of its SHA-256, in hexadecimal."""
    return hashlib.sha256(value.encode()).hexdigest()[:32]
