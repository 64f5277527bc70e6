#!/usr/bin/env python3
"""Runs crates/relay_log_check/out/relay_log_check on stored listings of both versions, as they should be and damaged, whole and in small parts.

Its answers are compared with those of `answer` below, a reader written from the text of change request 6 alone.
Run it at the repository's root, after `rt ci`, or `rt run` in the folders of both programs.
"""
import itertools, os, random, re, subprocess, sys, tempfile, time

sys.dont_write_bytecode = True
import relay_log
from relay_log import READER, run, run_measured

# The reader: what a line may be, and what the program has to answer.
LENGTHS = {1: {b'msg': (26, 49152)}, 2: {b'msg': (26, 65536), b'big': (65537, 48000000)}}
ELEMENTS = {1: 4096, 2: 262144}
SEQUENCES = 16
ID, NUMBER = re.compile(rb'0|-?[1-9][0-9]{0,9}'), re.compile(rb'0|[1-9][0-9]{0,19}')


def number(text):
    """An unsigned 64-bit number; -1, which no field allows, where text is none."""
    n = int(text) if NUMBER.fullmatch(text) else -1
    return n if n < 2**64 else -1


def is_id(text):
    return ID.fullmatch(text) is not None and -(2**31) <= int(text) < 2**31


class Stored:
    """What the lines so far say."""

    def __init__(self):
        self.version, self.messages, self.offset, self.refused, self.ended = None, 0, 0, False, False

    def takes(self, line):
        kind, *fields = line.split(b'\t')
        if self.version is None:
            self.version = {b'relay-log\t1': 1, b'relay-log\t2': 2}.get(line)
            return self.version is not None
        if self.ended:
            return False
        if kind == b'end' and len(fields) == 1:
            self.ended = True
            return number(fields[0]) == self.messages
        if self.refused or not fields or number(fields[0]) != self.offset:
            return False
        if kind == b'bad' and len(fields) == 3:
            self.refused = True
            return number(fields[1]) >= 0 and number(fields[2]) >= 0
        if len(fields) != {b'msg': 7, b'big': 2}.get(kind) or kind not in LENGTHS[self.version]:
            return False
        length = number(fields[1])
        low, high = LENGTHS[self.version][kind]
        self.messages += 1
        self.offset += length
        if kind == b'big':
            return low <= length <= high
        _, _, request, response, flags, sequences, elements = fields
        in_limits = low <= length <= high and 0 <= number(sequences) <= SEQUENCES and 0 <= number(elements) <= ELEMENTS[self.version]
        return in_limits and is_id(request) and is_id(response) and number(flags) >= 0


def answer(data):
    """A line has its newline; what is behind the last newline is none."""
    *lines, rest = data.split(b'\n')
    stored = Stored()
    for k, line in enumerate(lines):
        if not stored.takes(line):
            return b'bad\t38\t%d\n' % (k + 1)
    if stored.ended and not rest:
        return b'listing\t%d\t%d\n' % (stored.version, stored.messages)
    return b'bad\t38\t%d\n' % (len(lines) + 1)


# Listings, made from their lengths.
def body(r, version, lengths, refused=False, **fixed):
    """The lines behind the first; `fixed` sets fields."""
    lines, offset = [], 0
    for length in lengths:
        if version == 2 and length > 65536 and not fixed:
            lines.append(f'big\t{offset}\t{length}')
        else:
            field = {
                'request': r.choice([0, -1, 2**31 - 1, -(2**31), r.randint(-(2**31), 2**31 - 1)]),
                'response': r.choice([0, r.randint(-99, 99), r.randint(-(2**31), 2**31 - 1)]),
                'flags': r.choice([0, 1, 2, 65536, 65539, 2**32 - 1, 2**64 - 1]),
                'sequences': r.choice([0, 0, 1, 9, 10, 16]),
                'elements': r.choice([0, 1, 7, 4096, ELEMENTS[version], r.randint(0, ELEMENTS[version])]),
            } | fixed
            lines.append('\t'.join(map(str, ['msg', offset, length, *field.values()])))
        offset += length
    if refused:
        lines.append(f'bad\t{offset}\t{r.choice([1, 2, 3, 27, 0, 2**64 - 1])}\t{r.choice([0, 12, 65535, 2**64 - 1])}')
    return [line.encode() for line in lines] + [b'end\t%d' % len(lengths)]


def some_lengths(r, version, n):
    usual = [26, 27, 36, 49151, 49152, r.randint(26, 49152)]
    long = [49153, 65535, 65536, 65537, 65538, 48000000, r.randint(65537, 48000000)]
    return [r.choice(usual + long if version == 2 else usual) for _ in range(n)]


def joined(lines):
    return b''.join(line + b'\n' for line in lines)


def some_listing(r, most=12):
    version = r.choice([1, 2])
    lengths = some_lengths(r, version, r.randint(0, most))
    return [b'relay-log\t%d' % version] + body(r, version, lengths, refused=r.random() < 0.4)


# Damage: what a listing's lines become.
NUMERALS = (
    '|0|-0|00|01|+1|1|-1|1.0|1e3| 1|1 |0x1|٣|2|3|10|16|17|25|26|4096|4097|49152|49153|65536|65537|262144|262145|48000000|48000001|'
    '2147483647|2147483648|-2147483648|-2147483649|4294967295|4294967296|18446744073709551615|18446744073709551616|'
    '18446744073709551652|99999999999999999999|100000000000000000000|-18446744073709551616|' + '0' * 300 + '|' + '9' * 300
).split('|')
LINES = b'|relay-log\t1|relay-log\t2|msg|big|bad|end|end\t|end\t0|msg\t0\t36\t7\t0\t0\t0\t1|big\t0\t70000|bad\t36\t1\t0|\r|\0|x'.split(b'|')
BYTES = b'\0\t\n\r -+0123456789aebmgdn\x7F\x80\xFF'


def change_byte(r, lines):
    data = bytearray(joined(lines))
    data[r.randrange(len(data))] = r.choice(BYTES)
    return bytes(data)


def insert_byte(r, lines):
    data = joined(lines)
    at = r.randint(0, len(data))
    return data[:at] + bytes([r.choice(BYTES)]) + data[at:]


def delete_bytes(r, lines):
    data = joined(lines)
    at = r.randrange(len(data))
    return data[:at] + data[at + r.choice([1, 1, 1, 2, 9]) :]


def cut(r, lines):
    data = joined(lines)
    return data[: r.randrange(len(data))]


def change_field(r, lines):
    k = r.randrange(len(lines))
    fields = lines[k].split(b'\t')
    at = r.randrange(len(fields))
    old = fields[at]
    nearby = [b'0' + old, b'-' + old, old + b'0', old + b'\t', b'\t' + old, old + b' ', old + b'\r', old + b'\0', old.upper()]
    if old.lstrip(b'-').isdigit():
        nearby += [b'%d' % (int(old) + by) for by in (-1, 1, 2**32, 2**64, -(2**64))]
    fields[at] = r.choice([*nearby, r.choice(NUMERALS).encode()])
    return joined([*lines[:k], b'\t'.join(fields), *lines[k + 1 :]])


def move_fields(r, lines):
    k = r.randrange(len(lines))
    fields = lines[k].split(b'\t')
    a, b = r.randrange(len(fields)), r.randrange(len(fields))
    how = r.randrange(3)
    if how == 0:
        del fields[a]
    elif how == 1:
        fields.insert(a, fields[b])
    else:
        fields[a], fields[b] = fields[b], fields[a]
    return joined([*lines[:k], b'\t'.join(fields), *lines[k + 1 :]])


def move_lines(r, lines):
    lines = list(lines)
    a, b = r.randrange(len(lines)), r.randrange(len(lines))
    how = r.randrange(4)
    if how == 0:
        del lines[a]
    elif how == 1:
        lines.insert(a, lines[b])
    elif how == 2:
        lines[a], lines[b] = lines[b], lines[a]
    else:
        lines.insert(r.randint(0, len(lines)), r.choice(LINES))
    return joined(lines)


def other_version(r, lines):
    return joined([r.choice([b'relay-log\t1', b'relay-log\t2', b'relay-log\t3', b'relay-log\t0', b'relay-log\t', b'relay-log']), *lines[1:]])


def other_end(r, lines):
    return joined([*lines[:-1], b'end\t' + r.choice(NUMERALS).encode()])


def something_behind(r, lines):
    return joined(lines) + r.choice([b'\n', b'x', b'\0', b'end\t0\n', b'bad\t0\t1\t0\n', joined(lines)])


DAMAGE = [change_byte, insert_byte, delete_bytes, cut, change_field, change_field, change_field, move_fields, move_lines, other_version]
DAMAGE += [other_end, something_behind]


def limits():
    """Each limit, by itself: lengths with offsets that run on, sequences and elements."""
    r = random.Random(2)
    for version in (1, 2):
        first = b'relay-log\t%d' % version
        for length in (0, 1, 15, 16, 25, 26, 27, 49151, 49152, 49153, 65535, 65536, 65537, 48000000, 48000001, 2**32, 2**63, 2**64 - 1, 2**64):
            for kind in (b'msg', b'big'):
                between = {b'msg': b'%d\t7\t0\t0\t0\t1', b'big': b'%d'}[kind] % length
                for at, total in ((0, length), (36, 36 + length)):
                    before = [b'msg\t0\t36\t7\t0\t0\t0\t1'] if at else []
                    lines = [first, *before, b'%s\t%d\t%s' % (kind, at, between), b'msg\t%d\t26\t0\t0\t0\t0\t0' % total]
                    yield joined([*lines, b'end\t%d' % (2 + bool(at))])
                    yield joined([*lines, b'end\t%d' % (1 + bool(at))])
        for name in ('request', 'response', 'flags', 'sequences', 'elements'):
            for text in NUMERALS:
                yield joined([first, *body(r, version, [36, 26, 40], refused=True, **{name: text})])


def orders():
    """Up to four lines of all kinds in every order, with offsets that run on and ends that count right."""
    shown = {'msg': '36\t7\t0\t0\t0\t1', 'big': '70000', 'bad': '1\t0'}
    for version, n in itertools.product((1, 2), range(5)):
        for kinds in itertools.product(('msg', 'big', 'bad', 'end'), repeat=n):
            lines, offset, messages = [f'relay-log\t{version}'], 0, 0
            for kind in kinds:
                lines.append(f'end\t{messages}' if kind == 'end' else f'{kind}\t{offset}\t{shown[kind]}')
                offset += {'msg': 36, 'big': 70000}.get(kind, 0)
                messages += kind in ('msg', 'big')
            yield joined(line.encode() for line in lines)


def small_damage():
    """Every cut of a short listing, and at every place bytes that are changed, left out and put in."""
    for lines in ([b'relay-log\t1', *body(random.Random(3), 1, [36, 49152], True)], [b'relay-log\t2', *body(random.Random(4), 2, [36, 70000], True)]):
        data = joined(lines)
        for at in range(len(data)):
            yield data[:at]
            yield data[:at] + data[at + 1 :]
            for byte in (b'0', b'\t', b'\n'):
                yield data[:at] + byte + data[at:]
            yield data[:at] + bytes([data[at] ^ 1]) + data[at + 1 :]


def long_listings(r):
    lines = [b'relay-log\t2', *body(r, 2, some_lengths(r, 2, 200000), refused=True)]
    data = joined(lines)
    assert answer(data) == b'listing\t2\t200000\n'
    yield '200,000 lines', data
    yield '200,000 lines, cut', data[:-1]
    yield '200,000 lines twice', data + data
    for name, k in (('first', 0), ('second', 1), ('middle', 100000), ('last but one', -2), ('last', -1)):
        yield f'200,000 lines, the {name} damaged', joined([*lines[:k], lines[k] + b'0', *(lines[k:][1:])])
        yield f'200,000 lines, the {name} missing', joined([*lines[:k], *(lines[k:][1:])])
    for n in (100000, 5000000):
        for name, fill in (('x', b'x'), ('0', b'0'), ('9', b'9'), ('tab', b'\t'), ('NUL', b'\0'), ('newline', b'\n')):
            yield f'{n} bytes {name} alone', fill * n
            yield f'{n} bytes {name} behind three lines', joined(lines[:3]) + fill * n
            yield f'{n} bytes {name} behind end\'s number', b'relay-log\t2\nend\t0' + fill * n + b'\n'
            yield f'{n} bytes {name} behind the end', b'relay-log\t2\nend\t0\n' + fill * n + b'\n'
            yield f'{n} bytes {name} in a long listing', joined(lines[:5000]) + fill * n + b'\n' + joined(lines[5000:6000])


failed = 0


def several(name, listings, **how):
    """Runs the program on each, and counts what it has to answer."""
    global failed
    start, cases, good, wrong = time.time(), 0, 0, 0
    for k, data in enumerate(listings):
        expected, got = answer(data), run(data, program=READER, seed=k, **how)
        cases += 1
        good += expected.startswith(b'listing')
        if got != expected:
            wrong += 1
            if wrong <= 3:
                print(f'  wrote {got}, expected {expected}, of {len(data)} bytes: {data[:300]}')
    failed += wrong
    print(f'{f"{wrong} WRONG" if wrong else "ok"}\t{name}\t{cases} listings, {good} of them accepted\t{time.time() - start:.2f} s')


def arguments():
    """A file by its name, help, and what cannot be read."""
    with tempfile.NamedTemporaryFile() as file:
        file.write(b'relay-log\t1\nmsg\t0\t36\t7\t0\t0\t0\t1\nbad\t36\t1\t0\nend\t1\n')
        file.flush()
        relay_log.called('a file', [file.name], b'listing\t1\t1\n', b'', given=b'other bytes', program=READER)
    usage = subprocess.run([READER, '--help'], stdout=subprocess.PIPE, timeout=120).stdout
    relay_log.called('help', ['-h'], usage, b'', program=READER)
    relay_log.called('more than one file', ['a', 'b'], b'', usage, program=READER)
    relay_log.called('no such file', ['/no/such/file'], b'', b'/no/such/file: No such file', program=READER)
    relay_log.called('a folder', ['/'], b'bad\t38\t1\n', b'relay_log_check: read: Is a directory', program=READER)
    with open('/dev/full', 'wb') as full:
        relay_log.called('output that cannot be written', [], b'', b'relay_log_check: standard output: No space left', output=full, program=READER)


def main():
    global failed
    if not os.path.exists(READER):
        print(f'MISSING\t{READER}')
        sys.exit(1)
    r = random.Random(1)
    several('nothing, and next to nothing', [b'', b'\n', b'\0', b'\0' * 5000, b'relay-log\t2', b'relay-log\t2\n', b'relay-log\t1\nend\t0\n'])
    several('as they should be', [joined(some_listing(r)) for _ in range(300)])
    several('longer ones', [joined(some_listing(r, most=3000)) for _ in range(20)])
    several('two in a row', [joined(some_listing(r) + some_listing(r)) for _ in range(50)])
    several('limits', limits())
    several('orders', orders())
    several('a short one, every byte', small_damage())
    for damage in DAMAGE:
        several(damage.__name__, [damage(r, some_listing(r)) for _ in range(250)])
    damaged = [r.choice(DAMAGE)(r, some_listing(r, most=4)) for _ in range(300)]
    several('in parts of one byte', [joined(some_listing(r, most=4)) for _ in range(20)] + damaged[:30], chunk=1)
    several('in parts of up to 7 bytes', [joined(some_listing(r, most=4)) for _ in range(50)] + damaged[30:100], chunk=7)
    several('in parts of up to 40 bytes', [joined(some_listing(r, most=9)) for _ in range(100)] + damaged[100:], chunk=40)
    several('longer ones in parts', [joined(some_listing(r, most=3000)) for _ in range(20)], chunk=9999)
    for name, data in long_listings(r):
        several(f'{name}, {len(data)} bytes', [data])
        if name == '200,000 lines':
            several(f'{name} in parts', [data], chunk=65536)
            got, peak = run_measured(data, program=READER)
            good = got == answer(data) and 0 < peak < 4096
            failed += not good
            print(f'{"ok" if good else "WRONG"}\tpeak of {peak} KB resident')
    arguments()
    failed += relay_log.failed
    print('all as expected' if not failed else f'{failed} wrong')
    sys.exit(failed != 0)


if __name__ == '__main__':
    main()
