#!/usr/bin/env python3
"""Runs crates/relay_log/out/relay_log on streams that are made here, and compares what it writes byte by byte; crates/relay_log_check/out/relay_log_check
then reads every listing back.

What a line has to say is known from how its message is made: nothing here reads a message.
Run it at the repository's root, after `rt ci`, or `rt run` in the folders of both.
"""
import fcntl, os, random, struct, subprocess, sys, tempfile, termios, threading, time

PROGRAM = 'crates/relay_log/out/relay_log'
READER = 'crates/relay_log_check/out/relay_log_check'
BUFFER = 65536  # the longest message that is read; a longer one is passed over
LONGEST = 48000000  # the longest message


def crc32c(data):
    crc = 0xFFFFFFFF
    for byte in data:
        crc = TABLE[(crc ^ byte) & 0xFF] ^ (crc >> 8)
    return crc ^ 0xFFFFFFFF


def table():
    rows = []
    for n in range(256):
        for _ in range(8):
            n = n >> 1 ^ (0x82F63B78 if n & 1 else 0)
        rows.append(n)
    return rows


TABLE = table()


# Documents: bytes, and how many elements they have at all levels.
def document(elements):
    body = b''.join(e for e, _ in elements)
    return struct.pack('<i', len(body) + 5) + body + b'\0', sum(n for _, n in elements)


def integer(name, value):
    return b'\x10' + name + b'\0' + struct.pack('<i', value), 1


def string(name, text):
    return b'\x02' + name + b'\0' + struct.pack('<i', len(text) + 1) + text + b'\0', 1


def null(name):
    return b'\x0A' + name + b'\0', 1


def nested(name, elements, kind=b'\x03'):
    doc, n = document(elements)
    return kind + name + b'\0' + doc, n + 1


class Message:
    """A message and what its line says."""

    kind = 'msg'

    def __init__(self, request, response, flags, body, sequences=(), checksum=False):
        doc, elements = document(body)
        sections = b'\0' + doc
        for name, documents in sequences:
            made = [document(d) for d in documents]
            run = b''.join(d for d, _ in made)
            elements += sum(n for _, n in made)
            sections += b'\1' + struct.pack('<i', 4 + len(name) + 1 + len(run)) + name + b'\0' + run
        if checksum:
            flags |= 1
        length = 20 + len(sections) + (4 if checksum else 0)
        data = struct.pack('<iiiiI', length, request, response, 2013, flags) + sections
        if checksum:
            data += struct.pack('<I', crc32c(data))
        self.data = data
        self.shown = f'{length}\t{request}\t{response}\t{flags & 0x10003}\t{len(sequences)}\t{elements}'


class Big:
    """A message over the buffer's length: only its header's first number matters."""

    kind = 'big'

    def __init__(self, length, behind=b'', opcode=2013):
        self.data = (struct.pack('<iiii', length, -1, 1 << 30, opcode) + behind[: length - 16]).ljust(length, b'\0')
        self.shown = f'{length}'


def stream(messages, rest=b'', refusal=None):
    """The bytes of messages and of what is left, and the lines they give."""
    data, lines, offset = [], ['relay-log\t2'], 0
    for m in messages:
        data.append(m.data)
        lines.append(f'{m.kind}\t{offset}\t{m.shown}')
        offset += len(m.data)
    if refusal:
        lines.append(f'bad\t{offset}\t{refusal[0]}\t{refusal[1]}')
    lines.append(f'end\t{len(messages)}')
    return b''.join(data) + rest, ('\n'.join(lines) + '\n').encode()


def some_message(r):
    request, response = r.randint(-2**31, 2**31 - 1), r.choice([0, -1, -2**31, 2**31 - 1, r.randint(-9, 9)])
    flags = r.choice([0, 2, 0x10000, 0x10002, 0x20000, 0xFFFE0002])
    body = [integer(b'i%d' % k, k) for k in range(r.randint(0, 4))]
    if r.random() < 0.5:
        text = r.choice('xß水😀') * r.randint(0, 300)
        body.append(nested('größe'.encode(), [string(b's', text.encode()), nested(b'm', [integer(b'', 1)])]))
    names = [b'q%d' % k for k in range(r.choice([0, 0, 1, 2, 16]))]
    sequences = [(n, [[integer(b'a', 1)]] * r.randint(0, 3)) for n in names]
    return Message(request, response, flags, body, sequences, checksum=r.random() < 0.3)


def sized_message(length, checksum=False):
    """A message of so many bytes."""
    empty = len(Message(1, 2, 0, [string(b'f', b'')], checksum=checksum).data)
    return Message(1, 2, 0, [string(b'f', b'z' * (length - empty))], checksum=checksum)


def some_big(r, length, ping):
    """A message that is passed over: nonsense, a message as it should be, or what looks like many."""
    opcode = r.choice([2013, 2012, 2004, 1, 0, -1, r.randint(-2**31, 2**31 - 1)])
    kind = r.randrange(5)
    if kind == 0:
        return Big(length, r.randbytes(length - 16), opcode)
    if kind == 1:
        return Big(length, sized_message(length).data[16:], opcode)
    if kind == 2:
        return Big(length, ping.data * (length // len(ping.data)), opcode)
    if kind == 3:
        return Big(length, struct.pack('<IBi', r.choice([0, 1, 4]), r.choice([0, 1, 2]), r.choice([-1, 0, 2**31 - 1])), opcode)
    return Big(length, b'\xFF' * length, opcode)


def run(data, chunk=None, seed=0, program=PROGRAM):
    """What the program writes, where data comes at once, or through a pipe: in parts of up to `chunk` bytes, or in the parts that
    `chunk` lists, with longer pauses, and the rest.
    """
    if chunk is None:
        return subprocess.run([program], input=data, stdout=subprocess.PIPE, timeout=120).stdout
    r = random.Random(seed)
    listed = isinstance(chunk, list)
    sizes = iter(chunk) if listed else iter(lambda: r.randint(1, chunk), 0)
    p = subprocess.Popen([program], stdin=subprocess.PIPE, stdout=subprocess.PIPE, bufsize=0)

    def feed():
        at = 0
        try:
            while at < len(data):
                n = next(sizes, len(data))
                os.write(p.stdin.fileno(), data[at : at + n])
                at += n
                time.sleep(0.01 if listed else 0.0003)
        except BrokenPipeError:
            pass  # it has read enough
        p.stdin.close()

    feeder = threading.Thread(target=feed)
    feeder.start()
    out = p.stdout.read()
    feeder.join()
    p.wait()
    return out


def run_measured(data, program=PROGRAM):
    """What the program writes, and its peak of resident memory in KB: its input stays open until that has been looked up."""
    p = subprocess.Popen([program], stdin=subprocess.PIPE, stdout=subprocess.PIPE, bufsize=0)
    os.write(p.stdin.fileno(), data)
    unread, peak = 1, 0
    while unread and p.poll() is None:
        time.sleep(0.1)
        unread = struct.unpack('i', fcntl.ioctl(p.stdin.fileno(), termios.FIONREAD, bytes(4)))[0]
    if p.poll() is None:
        with open(f'/proc/{p.pid}/status') as status:
            peak = next(int(line.split()[1]) for line in status if line.startswith('VmHWM'))
    p.stdin.close()
    out = p.stdout.read()
    p.wait()
    return out, peak


failed = 0
read_back = 0


def read_back_as(listing, name):
    """Has a listing read, whose last line ends with how many messages it has."""
    global failed, read_back
    if not os.path.exists(READER):
        return
    expected = b'listing\t2\t' + listing.split(b'\t')[-1]
    got = subprocess.run([READER], input=listing, stdout=subprocess.PIPE, timeout=120).stdout
    read_back += 1
    if got != expected:
        failed += 1
        print(f'WRONG\t{name}: read back as {got}, expected {expected}')


def case(name, pair, **how):
    global failed
    data, expected = pair
    start = time.time()
    got = run(data, **how)
    good = got == expected
    failed += not good
    print(f'{"ok" if good else "WRONG"}\t{name}\t{len(data)} bytes\t{time.time() - start:.2f} s')
    if good:
        read_back_as(got, name)
    else:
        a, b = got.split(b'\n'), expected.split(b'\n')
        k = next((i for i in range(min(len(a), len(b))) if a[i] != b[i]), min(len(a), len(b)))
        print(f'  line {k}: wrote {a[k : k + 2]}, expected {b[k : k + 2]}')


def called(name, arguments, out, error, given=b'', output=None, program=PROGRAM):
    """Runs the program with arguments; compares what it writes, and what standard error has."""
    global failed
    done = subprocess.run([program, *arguments], input=given, stdout=output or subprocess.PIPE, stderr=subprocess.PIPE, timeout=120)
    good = (output is not None or done.stdout == out) and error in done.stderr and bool(done.stderr) == bool(error)
    failed += not good
    print(f'{"ok" if good else "WRONG"}\t{name}')
    if good and output is None and out.startswith(b'relay-log'):
        read_back_as(out, name)
    if not good:
        print(f'  wrote {done.stdout}, and to standard error {done.stderr}')


def arguments(ping):
    """A file by its name, help, and what cannot be read or written."""
    data, lines = stream([ping] * 3, b'xyz', (1, 0))
    with tempfile.NamedTemporaryFile() as file:
        file.write(data)
        file.flush()
        called('a file', [file.name], lines, b'', given=b'other bytes')
    usage = subprocess.run([PROGRAM, '--help'], stdout=subprocess.PIPE, timeout=120).stdout
    called('help', ['-h'], usage, b'')
    called('more than one file', ['a', 'b'], b'', usage)
    called('no such file', ['/no/such/file'], b'', b'/no/such/file: No such file')
    called('a folder', ['/'], b'relay-log\t2\nend\t0\n', b'relay_log: read: Is a directory')
    if not usage.startswith(b'usage: relay_log [FILE]\n'):
        called('help begins with how it is called', ['--help'], b'usage: relay_log [FILE]', b'')
    with open('/dev/full', 'wb') as full:
        called('output that cannot be written', [], b'', b'relay_log: standard output: No space left', given=data, output=full)


def memory(r, ping):
    """200 MB, most of them in messages that are passed over, take no memory beyond the buffer."""
    global failed
    start = time.time()
    messages = [ping, sized_message(BUFFER), Big(70000), Big(LONGEST, r.randbytes(LONGEST - 16)), Big(5000000), Big(BUFFER + 1)] * 4
    data, expected = stream(messages)
    got, peak = run_measured(data)
    good = got == expected and 0 < peak < 4096
    failed += not good
    print(f'{"ok" if good else "WRONG"}\tpeak of {peak} KB resident\t{len(data)} bytes\t{time.time() - start:.2f} s')
    read_back_as(got, 'memory')


def usual(r, ping, many):
    """Messages that are read: of all kinds, at the buffer's length, with many elements."""
    case('nothing', stream([]))
    case('the example of document 01', (ping.data + b'abc', b'relay-log\t2\nmsg\t0\t36\t7\t0\t0\t0\t1\nbad\t36\t1\t0\nend\t1\n'))
    case('pings', stream([ping] * 30000))
    case('5,000 messages of many kinds', stream(many))
    for n in (49152, 49153, BUFFER - 1, BUFFER):
        case(f'messages of {n} bytes', stream([sized_message(n)] * 40 + [sized_message(n, checksum=True)] * 2))
    case('long and short in turn', stream([sized_message(r.choice([BUFFER, BUFFER - 1, 49153, 16384, 65, 100])) for _ in range(300)]))
    distinct = [null(b'%d' % k) for k in range(5000)]
    for name, body in (('a document', [nested(b'd', distinct)]), ('an array', [nested(b'a', distinct, kind=b'\x04')]), ('the body', distinct)):
        case(f'5,000 nulls in {name}', stream([ping, Message(1, 2, 0, body), ping]))
    most = (BUFFER - len(Message(1, 2, 0, [nested(b'd', [])]).data)) // 2
    case(f'{most + 1} elements', stream([Message(1, 2, 0, [nested(b'd', [null(b'')] * most)])] * 3))


def passed(r, ping, many):
    """Messages that are passed over: whatever they hold, wherever they stand; and streams that end inside one."""
    for n in (BUFFER + 1, 70000, 1000000):
        bigs = [some_big(r, n, ping) for _ in range(12)]
        mixed = [m for pair in zip(many[:12], bigs) for m in pair]
        case(f'{n} bytes in a row', stream(bigs))
        case(f'{n} bytes behind each message', stream(mixed))
        case(f'{n} bytes before each message', stream(mixed[::-1]))
    for k in range(5):
        lengths = [r.choice([r.randint(26, 300), r.randint(BUFFER - 9, BUFFER + 20), r.randint(60000, 140000)]) for _ in range(150)]
        messages = [some_big(r, n, ping) if n > BUFFER else sized_message(max(n, 50)) for n in lengths]
        case(f'lengths around the buffer\'s, {k}', stream(messages))
    longest = Big(LONGEST, r.randbytes(LONGEST - 16), opcode=2012)
    case('48,000,000 bytes', stream([longest]))
    case('48,000,000 bytes among others', stream([ping, longest, sized_message(BUFFER), Big(LONGEST), *many[:20]]))
    case('48,000,000 bytes, and stray ones', stream([longest], b'x' * 15, (1, 0)))
    case('48,000,000 bytes in parts', stream([ping, longest, ping]), chunk=1000000)
    case('48,000,000 bytes, one short', stream(many[:10], longest.data[:-1], (3, 0)))
    for length in (BUFFER + 1, 2 * BUFFER, 1000000, LONGEST):
        whole = Big(length).data if length < LONGEST else longest.data
        for n in (1, 15, 16, 17, 20, 30000, BUFFER - 1, BUFFER, BUFFER + 1, length // 2, length - 1):
            if n < length:
                refusal = (1, 0) if n < 16 else (3, 0)
                case(f'{n} bytes of {length}', stream([ping, Big(70000, b'\1' * 70000), *many[:3]], whole[:n], refusal))
                case(f'{n} bytes of {length} and no other', stream([], whole[:n], refusal))


def main():
    global failed
    if not os.path.exists(READER):
        failed += 1
        print(f'MISSING\t{READER}: no listing is read back')
    r = random.Random(1)
    ping = Message(7, 0, 0, [integer(b'ping', 1)])
    many = [some_message(r) for _ in range(5000)]
    usual(r, ping, many)
    passed(r, ping, many)
    for n in range(26):
        case(f'{n} stray bytes', stray(ping, n))
    for name, rest, refusal in refusals(ping):
        case(f'refused in the middle: {name}', stream(many[:2000], rest + ping.data * 2000, refusal))
        case(f'refused at the end: {name}', stream(many[:10], rest, refusal))
        case(f'refused behind a long one: {name}', stream([Big(66000)], rest, refusal))
    bigs = [some_big(r, r.randint(BUFFER + 1, 67000), ping) for _ in range(10)]
    case('a few bytes at a time', stream(many[:60], ping.data[:20], (3, 0)), chunk=7)
    case('up to three bytes at a time', stream(many[60:75]), chunk=3)
    case('one byte at a time', stream([ping] * 20, b'x', (1, 0)), chunk=1)
    case('parts of 5,000 bytes', stream(many[:2000]), chunk=5000)
    case('long messages in parts', stream([sized_message(BUFFER)] * 3), chunk=1500)
    case('a passed message in parts', stream([ping, Big(66000), ping]), chunk=99)
    case('passed messages in parts', stream([m for pair in zip(bigs, many) for m in pair]), chunk=999)
    case('passed messages in a row in parts', stream(bigs[:5], bigs[5].data[:-1], (3, 0)), chunk=999)
    for n in (1, 15, 16, 17, 35, 36, BUFFER - 1, BUFFER, BUFFER + 1, 69999):
        case(f'a pause behind {n} bytes of a passed message', stream([ping, Big(70000), Big(70000), ping]), chunk=[36, n, 70000 - n, n])
        case(f'a pause behind {n} bytes of one that is read', stream([ping, sized_message(BUFFER), ping]), chunk=[36, min(n, BUFFER)])
    arguments(ping)
    memory(r, ping)
    print(f'{read_back} listings read back')
    print('all as expected' if not failed else f'{failed} wrong')
    sys.exit(failed != 0)


def stray(ping, n):
    """Three pings and the first n bytes of one."""
    if n == 0:
        return stream([ping] * 3)
    return stream([ping] * 3, ping.data[:n], (1, 0) if n < 16 else (3, 0))


def refusals(ping):
    """Messages that are refused, with the number and the place."""

    def edited(*edits):
        data = bytearray(ping.data)
        for at, new in edits:
            data[at : at + len(new)] = new
        return bytes(data)

    word = lambda n: struct.pack('<I', n)
    return [
        *[(f'length {n}', edited((0, word(n))), (2, 0)) for n in (0, 1, 15, LONGEST + 1, 2**31 - 1, 2**31, 2**32 - 1)],
        ('length 48,000,001 with 70,000 bytes', word(LONGEST + 1) + Big(70000).data[4:], (2, 0)),
        ('length 19', edited((0, word(19))), (7, 16)),
        ('opcode 2004', edited((12, word(2004))), (4, 12)),
        ('opcode 2012', edited((12, word(2012))), (5, 12)),
        ('opcode 2003', edited((12, word(2003))), (6, 12)),
        ('flag word 4', edited((16, word(4))), (8, 16)),
        ('a checksum that differs', Message(1, 1, 0, [], checksum=True).data[:-1] + b'\0', (9, 26)),
        ('kind 2', edited((20, b'\2')), (10, 20)),
        ('no body', struct.pack('<iiiiI', 20, 1, 1, 2013, 0), (22, 20)),
        ('a type that is not in the table', edited((25, b'\x14')), (17, 25)),
        ('a document that passes the end', edited((21, word(16))), (15, 21)),
        ('a name that is not UTF-8', edited((28, b'\xC3')), (27, 28)),
        ('a text in a Latin code page', Message(1, 1, 0, [string(b'maker', b'M\xFCller')]).data, (27, 37)),
    ]


if __name__ == '__main__':
    main()
