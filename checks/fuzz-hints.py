#!/usr/bin/env python3
"""fuzz-hints.py PROGRAM [PIECES [SEED]]: random and mutated pieces of uevents, each in a `hint` line of a script, while three devices come and go.

The script goes through `PROGRAM replay`, and its journal is compared with what this file makes of the pieces by usbguard-replay(5) alone: which messages
are refused, with which kind and place, and which names are settled."""
import random
import re
import subprocess
import sys

HUB = '12010002090001406b1d020006060302010109021900010100e0000904000001090000000705810304000c'
DEVICE = '120100020000004050101100000100000001'
PORTS = ('1-1', '1-2', '1-3')
PAIRS = re.compile(rb'usb[1-9]\d{0,2}|[1-9]\d{0,2}-[1-9]\d{0,2}(\.[1-9]\d{0,2})*')


def is_name(text):
    if not PAIRS.fullmatch(text) or len(text) > 31:
        return False
    return all(int(port) <= 255 for port in text.partition(b'-')[2].split(b'.') if port)


def is_number(text):
    return re.fullmatch(rb'0|[1-9]\d*', text) is not None and int(text) < 2**64


def read(message):
    """What a message, without the empty string that ends it, comes to: (kind, place), or the name that it hints at, if any."""
    strings = message.split(b'\0')[:-1]
    action, sign, path = strings[0].partition(b'@') if strings else (b'', b'', b'')
    if not sign or not action:
        return (1, 0), None
    seen, end = {}, len(strings[0]) + 1
    for text in strings[1:]:
        place, end = end, end + len(text) + 1
        key, sign, value = text.partition(b'=')
        if not sign or not key:
            return (2, place), None
        if key in (b'ACTION', b'DEVPATH', b'SUBSYSTEM', b'SEQNUM'):
            if key in seen:
                return (4, place), None
            seen[key] = value
        if key == b'ACTION' and value != action or key == b'DEVPATH' and value != path:
            return (3, place), None
        if key == b'SEQNUM' and not is_number(value):
            return (5, place), None
    last = path.rpartition(b'/')
    if seen.get(b'SUBSYSTEM') == b'usb' and last[1] and is_name(last[2]):
        return None, last[2].decode()
    return None, None


class Stream:
    def __init__(self):
        self.bytes, self.ended = b'', False

    def feed(self, piece):
        """The messages that end in the piece."""
        found = []
        self.bytes += b'' if self.ended else piece
        while not self.ended:
            # an empty string: a zero byte at the beginning, or behind another
            at = 0 if self.bytes[:1] == b'\0' else self.bytes.find(b'\0\0') + 1
            if (at > 0 or self.bytes[:1] == b'\0') and at < 8192:
                found.append(read(self.bytes[:at]))
                self.bytes = self.bytes[at + 1:]
            elif len(self.bytes) >= 8192:
                found.append(((6, 8192), None))
                self.ended = True
            else:
                break
        return found


def message(chance):
    """A message, mostly a good one."""
    name = chance.choice(PORTS + ('usb1', '1-4', '1-1:1.0', '01-1', '1-300', 'usb1000', '1-' + '1.' * 20 + '1'))
    action = chance.choice(('add', 'remove', 'change', 'bind', 'a'))
    path = chance.choice(('/devices/usb1/', '/', '', '/d@e/')) + name
    strings = [f'{action}@{path}', f'ACTION={action}', f'DEVPATH={path}', f"SUBSYSTEM={chance.choice(('usb', 'usb', 'usb', 'net'))}",
               f"SEQNUM={chance.choice(('7', '0', '18446744073709551615', '18446744073709551616', '007', ''))}", 'DEVTYPE=usb_device', 'X=']
    for _ in range(chance.choice((0, 0, 0, 1, 2))):
        at = chance.randrange(len(strings))
        how = chance.randrange(5)
        if how == 0:
            del strings[at]
        elif how == 1:
            strings.insert(chance.randrange(len(strings) + 1), strings[at])
        elif how == 2:
            strings[at] = strings[at].replace('=', '', 1)
        elif how == 3:
            strings[at] = strings[at][1:]
        else:
            strings[at] += chance.choice('x0=@')
        strings = strings or ['add@/1-1']
    if chance.random() < 0.002:
        strings.append('LONG=' + 'x' * chance.randrange(7900, 8300))
    return b''.join(it.encode() + b'\0' for it in strings) + b'\0'


def pieces(chance):
    """Pieces without end: messages, cut anywhere, some with other bytes."""
    waiting = b''
    while True:
        while len(waiting) < 600:
            more = bytearray(message(chance))
            for _ in range(chance.choice((0, 0, 0, 0, 1, 3))):
                how, at = chance.randrange(3), chance.randrange(len(more))
                if how == 0:
                    more[at] = chance.randrange(256)
                elif how == 1:
                    del more[at]
                else:
                    more.insert(at, chance.choice((0, 0, 61, 64, chance.randrange(256))))
                if not more:
                    break
            waiting += bytes(more)
        size = chance.choice((1, 2, 30, 100, 300))
        yield waiting[:size]
        waiting = waiting[size:]


def run(chance, count, put, want):
    put('usbguard-replay 1')
    put(f'plug usb1 1 {HUB} - - -')
    put('sweep 1')
    want.extend(['event 1 sweep 1', 'judged 1 usb1 allow keep', 'end 1'])
    stream, number, event, there, known = Stream(), 2, 1, {}, {}
    for at, piece in enumerate(pieces(chance)):
        if at == count:
            break
        if chance.random() < 0.3:
            name = chance.choice(PORTS)
            if name in there:
                put(f'unplug {name}')
                del there[name]
            else:
                put(f'plug {name} 0 {DEVICE} - - -')
                there[name] = at
        if stream.ended or chance.random() < 0.0002:
            # a new daemon, which knows no device until it has listed all
            put('restart')
            put('sweep 1')
            event += 1
            stream, number, known = Stream(), 2, {}
            want.extend([f'event {event} sweep 1', 'judged 1 usb1 allow keep'])
            for name in PORTS:
                if name in there:
                    want.append(f'judged {number} {name} block implicit')
                    known[name] = number, there[name]
                    number += 1
            want.append(f'end {event}')
        put(f'hint 1 {piece.hex()}')
        event += 1
        want.append(f'event {event} hint 1')
        found = stream.feed(piece)
        want.extend(f'hint refused {bad[0]} {bad[1]}' for bad, _ in found if bad)
        for name in sorted({name for _, name in found if name in PORTS}):
            if name in known and known[name][1] != there.get(name):
                want.append(f'gone {known.pop(name)[0]} {name}')
            if name in there and name not in known:
                want.append(f'judged {number} {name} block implicit')
                known[name] = number, there[name]
                number += 1
        want.append(f'end {event}')
    want.append(f'done {event}')


def main():
    program, count, seed = sys.argv[1], int((sys.argv + [''] * 4)[2] or 1000000), int((sys.argv + [''] * 4)[3] or 1)
    done = 0
    # in parts, so that little is kept
    for part in range(0, count, 20000):
        want, lines = [], []
        run(random.Random(seed * 1000003 + part), min(20000, count - part), lines.append, want)
        ran = subprocess.run([program, 'replay'], input='\n'.join(lines) + '\n', capture_output=True, text=True)
        got = ran.stdout.splitlines()
        if ran.returncode or got != want:
            at = next((i for i, (one, other) in enumerate(zip(got, want)) if one != other), min(len(got), len(want)))
            print(f'part {part}: status {ran.returncode}; line {at + 1}: got {got[at:at + 3]}, wanted {want[at:at + 3]}')
            with open('fuzz-hints.script', 'w') as file:
                file.write('\n'.join(lines) + '\n')
            return 1
        done += min(20000, count - part)
        print(f'\r{done} pieces', end='', flush=True)
    print(f'\r{done} pieces, as wanted')
    return 0


if __name__ == '__main__':
    sys.exit(main())
