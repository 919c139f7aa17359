#!/usr/bin/env python3
"""edn_test.py: converts small histories and compares what comes of each. With the word `planted` it changes each wanted line in turn, and fails where
one such change goes unseen."""
import sys

from edn import Refused, maps, transcript

HEAD = '1 event members mv coords 1|1 log m1 header 1|1 log c1 header 1|1 reply open'
ROWS = [
    ('an empty history', '', HEAD),
    ('a write and a read of it, and a fail between them',
     '{:type :invoke, :value [[:w :x nil]]} {:type :ok, :value [[:w :x 1]]} {:type :fail, :value [[:w :x 2]]} {:type :ok :value [[:r :x 1] [:r "y z" nil]]}',
     HEAD + '|2 event begin 1 c1|2 reply begun|3 event write 1 m1 x 1|3 reply done|4 event commit 1|4 log c1 commit 1|4 reply committed'
     '|5 event begin 2 c1|5 reply begun|6 event read 2 m1 x|6 reply got 1|7 event read 2 m1 ~79207a|7 reply missing'
     '|8 event commit 2|8 log c1 commit 2|8 reply committed'),
    ('an unclear end counts where its write was read, and its reads do not',
     '[{:type :info, :value [[:w :x 1] [:r :y nil]]}, {:type :info, :value [[:w :z 1]]}, #jepsen.history.Op{:type :ok, :value [[:r :x 1]]}]',
     HEAD + '|2 event begin 1 c1|2 reply begun|3 event write 1 m1 x 1|3 reply done|4 event commit 1|4 log c1 commit 1|4 reply committed'
     '|5 event begin 2 c1|5 reply begun|6 event read 2 m1 x|6 reply got 1|7 event commit 2|7 log c1 commit 2|7 reply committed'),
    ('an append is no register', '{:type :ok, :value [[:append :x 1]]}', None),
    ('a long key', '{:type :ok, :value [[:r :' + 'k' * 33 + ' 1]]}', None),
    ('a map without an end', '{:type :ok', None),
]


def come_to(text):
    try:
        return transcript(list(maps(text)))
    except Refused:
        return None


def wanted_of(row):
    return None if row is None else ''.join(line + '\n' for line in row.split('|'))


def faults(rows):
    return [name for name, text, wanted in rows if come_to(text) != wanted_of(wanted)]


def main():
    if sys.argv[1:] == ['planted']:
        for place, (name, text, wanted) in enumerate(ROWS):
            bent = ROWS[:place] + [(name, text, HEAD if wanted != HEAD else None)] + ROWS[place + 1:]
            if faults(bent) != [name]:
                sys.exit(f'edn_test.py: a changed line is not seen: {name}')
        print(f'{len(ROWS)} planted faults seen')
        return
    found = faults(ROWS)
    if found:
        sys.exit('edn_test.py: ' + '; '.join(found))
    print(f'{len(ROWS)} histories agree')


if __name__ == '__main__':
    main()
