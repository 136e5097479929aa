"""stream.py SECONDS OUT: writes a stream of about 2.4 MB a second, as `take`, `peak` and `list` are measured with.

Two timed assets with 60 access units a second, in MPUs of half a second: packet id 256 with MFUs of 20,000 to 60,000 bytes in
parts of at most 1,400, and packet id 272 with MFUs of 300 bytes. Every half second a buffer message and a table that names the
MPUs of this half second and of the next. All in header-compressed IP packets, the header in full once in 16."""
import random
import struct
import sys

LIMIT, SPACING, WINDOW, DELAY, BOUND = 1400, 10, 131072, 6554, 16000000
FULL = bytes([0x60, 0, 0, 0, 17, 64]) + bytes.fromhex('20010db8000000000000000000000001' 'ff0e0000000000000000000000000101') + struct.pack('>HH', 51300, 51300)


def descriptors(time, block, blocks):
    """The two timestamp descriptors that name an asset's MPUs of this half second and of the next."""
    mpus = [m for m in (block, block + 1) if m < blocks]
    pairs = b''.join(struct.pack('>IQ', m, time(m)) for m in mpus)
    offsets = b''.join(struct.pack('>IBHB', m, 0, 0, 30) + bytes(60) for m in mpus)
    extended = bytes([3]) + struct.pack('>IH', 60000, 1000) + offsets
    return struct.pack('>HB', 0x0001, len(pairs)) + pairs + struct.pack('>HB', 0x8026, len(extended)) + extended


def table(time, block, blocks):
    """A PA message with the MMT Package Table."""
    assets = b''
    for packet_id, name, kind in ((256, b'video', b'hev1'), (272, b'audio', b'mp4a')):
        of_asset = descriptors(time, block, blocks)
        assets += struct.pack('>BIB', 0, 0, len(name)) + name + kind + struct.pack('>BBBH', 0, 1, 0, packet_id)
        assets += struct.pack('>H', len(of_asset)) + of_asset
    body = struct.pack('>BB', 0, 5) + b'bench' + struct.pack('>HB', 0, 2) + assets
    mpt = struct.pack('>BBH', 0x20, block % 256, len(body)) + body
    tables = struct.pack('>BBBH', 1, 0x20, block % 256, len(mpt)) + mpt
    return bytes(2) + struct.pack('>HBI', 0, 0, len(tables)) + tables


def media(block, sample, unit, first):
    """The payloads of an MFU: whole, or cut into parts."""
    header = struct.pack('>IIIBB', block, sample, 0, 0, 0)
    parts = [unit[at:at + LIMIT] for at in range(0, len(unit), LIMIT)]
    for i, part in enumerate(parts):
        kind = 0 if len(parts) == 1 else 1 if i == 0 else 3 if i == len(parts) - 1 else 2
        rest = bytes([0x28 | kind << 1, len(parts) - 1 - i]) + struct.pack('>I', block) + header + part
        yield first and i == 0, struct.pack('>H', len(rest)) + rest


def packets(seconds):
    """Each packet's tick, packet id, payload type, R flag and payload, half second by half second."""
    r = random.Random(7)
    noise = r.randbytes(1 << 20)
    blocks = 2 * seconds
    time = lambda m: (1001 << 32) + (m << 31)
    for block in range(blocks):
        at = 65536000 + 32768 * block
        ready = [(at, 0, 2, 0, bytes(2) + struct.pack('>HBHIII', 0xF100, 0, 12, BOUND, WINDOW, DELAY)),
                 (at, 0, 2, 0, table(time, block, blocks))]
        for k in range(30):
            for packet_id, length in ((256, r.randrange(20000, 60001)), (272, 300)):
                place = r.randrange(0, len(noise) - length)
                tick = at + k * 16384 // 15
                for i, (is_first, payload) in enumerate(media(block, k + 1, noise[place:place + length], k == 0)):
                    ready.append((tick + i * SPACING, packet_id, 0, is_first, payload))
        yield from sorted(ready, key=lambda p: p[0])


def main():
    numbers, count = {}, 0
    with open(sys.argv[2], 'wb') as out:
        ready = []
        for tick, packet_id, kind, flag, payload in packets(int(sys.argv[1])):
            number = numbers.get(packet_id, 0)
            numbers[packet_id] = number + 1
            mmtp = struct.pack('>BBHII', int(flag), kind, packet_id, tick % 2 ** 32, number) + payload
            front = struct.pack('>H', 1 << 4 | count % 16) + (FULL_TYPE if count % 16 == 0 else SHORT_TYPE)
            ready.append(struct.pack('>BBH', 0x7F, 3, len(front) + len(mmtp)) + front + mmtp)
            count += 1
            if len(ready) == 1000:
                out.write(b''.join(ready))
                ready = []
        out.write(b''.join(ready))


FULL_TYPE, SHORT_TYPE = bytes([0x60]) + FULL, bytes([0x61])
main()
