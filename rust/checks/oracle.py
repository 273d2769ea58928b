"""A third reader of the scripts, by the obvious token loop: answers a script from
standard input. Only to find slips in `second`, which is written otherwise."""
import struct
import sys

LIMIT = 1048576


class No(Exception):
    pass


NONE = 4096


def no(number, place, glyph=NONE):
    raise No(number, place, glyph)


class Font:
    pass


def noncharacter(v):
    return 0xFDD0 <= v <= 0xFDEF or v & 0xFFFE == 0xFFFE


def tokens(tail, unit):
    """Yields (sort, value, at, end); sort 'cut' or ('bad', place) last."""
    i, n = 0, len(tail)
    while i < n:
        b = tail[i]
        if unit:
            if i + 1 >= n:
                yield 'cut', None, i, n
                return
            v = b | tail[i + 1] << 8
            sort = {0xFFFE: 'start', 0xFFFF: 'end'}.get(v, 'value')
            if sort == 'value' and noncharacter(v):
                yield 'bad', i + 1, i, i
                return
            yield sort, v, i, i + 2
            i += 2
            continue
        if b == 0xFE:
            yield 'start', None, i, i + 1
            i += 1
            continue
        if b == 0xFF:
            yield 'end', None, i, i + 1
            i += 1
            continue
        if b < 0x80:
            need, low, v = 0, 0, b
        elif 0xC2 <= b <= 0xDF:
            need, low, v = 1, 0x80, b & 0x1F
        elif 0xE0 <= b <= 0xEF:
            need, low, v = 2, 0x800, b & 0x0F
        elif 0xF0 <= b <= 0xF4:
            need, low, v = 3, 0x10000, b & 0x07
        else:
            yield 'bad', i, i, i
            return
        at, whole = i, need
        i += 1
        while need:
            if i >= n:
                yield 'cut', None, at, n
                return
            c = tail[i]
            ok = 0x80 <= c <= 0xBF
            if ok:
                v = v << 6 | c & 0x3F
                need -= 1
                least, most = v << 6 * need, (v + 1 << 6 * need) - 1
                # some value of this start must be long enough, no surrogate, in range
                ok = most >= low and least <= 0x10FFFF and not (0xD800 <= least and most <= 0xDFFF)
                # no noncharacter is another's start, so only its last byte is wrong
                ok = ok and not (need == 0 and noncharacter(v))
            if not ok:
                yield 'bad', i, at, i
                return
            i += 1
        yield 'value', v, at, i


def read(tail, n, unit, base, length):
    """The items of each glyph, or the refusal."""
    glyphs, items, state, end = [], [], 'singles', 0
    if n == 0:
        raise ValueError
    for sort, v, at, end in tokens(tail, unit):
        if sort == 'cut':
            no(10, length, len(glyphs))
        if sort == 'bad':
            no(11, base + v, len(glyphs))
        if state == 'started' and sort != 'value':
            no(11, base + at + (1 if unit else 0), len(glyphs))
        if sort == 'value':
            items.append(('single' if state == 'singles' else 'value', v, base + at))
            if state == 'started':
                state = 'in'
        elif sort == 'start':
            items.append(('start', None, base + at))
            state = 'started'
        else:
            items.append(('end', None, base + at))
            glyphs.append(items)
            items, state = [], 'singles'
            if len(glyphs) == n:
                if end < len(tail):
                    no(12, base + end)
                return glyphs
    no(10, length, len(glyphs))


cache = {}


def check(f):
    f = bytes(f)
    if f not in cache:
        if len(cache) > 50:
            cache.clear()
        try:
            cache[f] = check_(f)
        except No as e:
            cache[f] = e
    if isinstance(cache[f], No):
        raise No(*cache[f].args)
    return cache[f]


def check_(f):
    if len(f) > LIMIT:
        no(1, LIMIT)
    o = Font()
    if f[:2] == b'\x36\x04':
        o.kind = 'psf1'
    elif f[:4] == b'\x72\xb5\x4a\x86':
        o.kind = 'psf2'
    elif f[:4] == b'\x27\x5b\xa4\x68':
        o.kind = 'vfont2'
    else:
        no(2, 0)
    if len(f) < (4 if o.kind == 'psf1' else 32):
        no(3, len(f))
    if o.kind == 'psf1':
        if f[2] > 5:
            no(4, 2)
        if f[3] == 0:
            no(7, 3)
        o.n, o.h, o.w, o.tab = (512 if f[2] & 1 else 256), f[3], 8, 1 if f[2] & 6 else 0
        o.head = 4
        o.end = 4 + o.n * o.h
        o.cells = [(4 + i * o.h, o.h, 8) for i in range(o.n)]
        if len(f) < o.end:
            no(8, len(f))
    else:
        ver, hs, fl, n, b, h, w = struct.unpack('<7I', f[4:32])
        if ver:
            no(4, 4)
        if fl > 1:
            no(4, 12)
        if hs < 32 or hs > 4096:
            no(5, 8)
        if n == 0 or n > 4096:
            no(6, 16)
        o.n, o.h, o.w, o.tab, o.head = n, h, w, fl, hs
        if o.kind == 'psf2':
            if h < 1 or h > 255:
                no(7, 24)
            if w < 1 or w > 255:
                no(7, 28)
            if b != h * ((w + 7) // 8):
                no(7, 20)
            o.end = hs + n * b
            if len(f) < o.end:
                no(8, len(f))
            o.cells = [(hs + i * b, h, w) for i in range(n)]
        else:
            if h > 255:
                no(7, 24)
            if w > 255:
                no(7, 28)
            bm = hs + 18 * n
            o.end = bm + b
            if len(f) < o.end:
                no(8, len(f))
            o.cells, o.ent = [], []
            H = W = 0
            for i in range(n):
                a, s, u, d, l, r, lw = struct.unpack('<IIhhhhh', f[hs + 18 * i:hs + 18 * i + 18])
                o.ent.append((s, u, d, l, r, lw))
                if s == 0:
                    o.cells.append(None)
                    continue
                hh, ww = u + d, l + r
                if hh < 1 or hh > 255 or ww < 1 or ww > 255:
                    no(9, hs + 18 * i, i)
                if s != hh * ((ww + 7) // 8) or a + s > b:
                    no(9, hs + 18 * i, i)
                H, W = max(H, hh), max(W, ww)
                o.cells.append((bm + a, hh, ww))
            if H != h:
                no(9, 24)
            if W != w:
                no(9, 28)
    if o.tab:
        o.read = read(f[o.end:], o.n, o.kind == 'psf1', o.end, len(f))
    elif len(f) > o.end:
        no(12, o.end)
    else:
        o.read = []
    return o


def cell(f, g):
    o = check(f)
    if g >= o.n:
        no(13, 0)
    if o.cells[g] is None:
        no(16, 0)
    return o.cells[g]


def glyph(f, g):
    at, h, w = cell(f, g)
    return at, h * ((w + 7) // 8)


def row(f, g, r):
    at, h, w = cell(f, g)
    if r >= h:
        no(13, 0)
    return at + r * ((w + 7) // 8), (w + 7) // 8


def pixel(f, g, r, c):
    at, h, w = cell(f, g)
    if r >= h or c >= w:
        no(13, 0)
    return f[at + r * ((w + 7) // 8) + c // 8] >> (7 - c % 8) & 1


def metrics(f, g):
    o = check(f)
    if g >= o.n:
        no(13, 0)
    if o.kind != 'vfont2':
        return o.h, 0, 0, o.w, o.w
    if o.ent[g][0] == 0:
        no(16, 0)
    return o.ent[g][1:]


def tabled(f):
    o = check(f)
    if not o.tab:
        no(14, 0)
    return o


def walk(f, g, k):
    o = tabled(f)
    if g >= o.n or k >= len(o.read[g]):
        no(13, 0)
    return o.read[g][k]


def value(f, v):
    o = tabled(f)
    if v > 0x10FFFF:
        no(13, 0)
    for g, d in enumerate(o.read):
        for it in d:
            if it[0] == 'single' and it[1] == v:
                return g
    no(15, 0)


def sequence(f, vs):
    o = tabled(f)
    if not vs or max(vs) > 0x10FFFF:
        no(13, 0)
    for g, d in enumerate(o.read):
        cur = None
        for it in d:
            if it[0] in ('start', 'end'):
                if cur == vs:
                    return g
                cur = []
            elif it[0] == 'value':
                cur.append(it[1])
    no(15, 0)


def put8(v):
    if v < 0x80:
        return bytes([v])
    if v < 0x800:
        return bytes([0xC0 | v >> 6, 0x80 | v & 63])
    if v < 0x10000:
        return bytes([0xE0 | v >> 12, 0x80 | v >> 6 & 63, 0x80 | v & 63])
    return bytes([0xF0 | v >> 18, 0x80 | v >> 12 & 63, 0x80 | v >> 6 & 63, 0x80 | v & 63])


def convert(f, which, room):
    o = check(f)
    if o.kind != ['psf1', 'psf2', 'psf2', 'vfont2'][which]:
        no(17, 0)
    if which == 1:
        if o.n not in (256, 512):
            no(18, 16)
        if o.w != 8:
            no(18, 28)
    if which == 3:
        for i, e in enumerate(o.ent):
            if e[0] == 0 or e[1:] != (o.h, 0, 0, o.w, o.w):
                no(18, o.head + 18 * i, i)
    t = bytearray()
    for g, d in enumerate(o.read):
        for s, v, at in d:
            if s in ('single', 'value'):
                if which == 0 and v >> 11 == 0x1B:
                    no(19, at, g)
                if which == 1 and v > 0xFFFF:
                    no(19, at, g)
                t += struct.pack('<H', v) if which == 1 else put8(v)
            elif which == 1:
                t += b'\xfe\xff' if s == 'start' else b'\xff\xff'
            else:
                t += b'\xfe' if s == 'start' else b'\xff'
    c = o.h * ((o.w + 7) // 8)
    size = (4 if which == 1 else 32) + (18 * o.n if which == 2 else 0) + o.n * c + len(t)
    if size > LIMIT:
        no(20, 0)
    if size > room:
        no(21, size)
    bits = b''.join(f[a:a + c] for a, _, _ in o.cells)
    if which == 1:
        head = bytes([0x36, 4, (o.n == 512) + 2 * o.tab, o.h])
    elif which == 2:
        head = b'\x27\x5b\xa4\x68' + struct.pack('<7I', 0, 32, o.tab, o.n, o.n * c, o.h, o.w)
        for i in range(o.n):
            head += struct.pack('<IIhhhhh', i * c, c, o.h, 0, 0, o.w, o.w)
    else:
        head = b'\x72\xb5\x4a\x86' + struct.pack('<7I', 0, 32, o.tab, o.n, c, o.h, o.w)
    out = head + bits + bytes(t)
    assert len(out) == size
    return out


def edit(buf, length, g, v, add):
    """The new length; changes the buffer."""
    if length > len(buf):
        no(13, 0)
    f = bytes(buf[:length])
    o = check(f)
    if o.kind != 'psf2':
        no(17, 0)
    if not o.tab:
        no(14, 0)
    if g >= o.n:
        no(13, 0)
    if v > 0x10FFFF or 0xD800 <= v <= 0xDFFF:
        no(13, 0)
    if add and noncharacter(v):
        no(13, 0)
    # where the singles end, and where those that are v stand
    stop, found = None, []
    for sort, w, at in o.read[g]:
        if sort != 'single':
            stop = at
            break
        if w == v:
            found.append(at)
    word = put8(v)
    if add:
        if found:
            no(24, 0)
        new = f[:stop] + word + f[stop:]
    else:
        if not found:
            no(25, 0)
        new = f[:found[0]] + f[found[0] + len(word):]
    if len(new) > LIMIT:
        no(20, 0)
    if len(new) > len(buf):
        no(21, len(new))
    front = new + bytes(max(0, length - len(new)))
    buf[:len(front)] = front
    return len(new)


def rows(f, c):
    """Each row's pixels as a number, without the fillers."""
    at, h, w = c
    k = (w + 7) // 8
    return [int.from_bytes(f[at + y * k:at + y * k + k], 'big') >> 8 * k - w for y in range(h)]


def differences(first, second, room):
    """The pairs, flat; a refusal with the font it is of."""
    o = []
    for number, f in ((1, first), (2, second)):
        try:
            o.append(check(f))
        except No as e:
            raise No(*e.args, number)
    a, b = o
    out = []
    if a.tab != b.tab:
        out += [6, 0]
    for g in range(max(a.n, b.n)):
        if g >= b.n:
            out += [1, g]
            continue
        if g >= a.n:
            out += [2, g]
            continue
        x, y = a.cells[g], b.cells[g]
        if (x is None) != (y is None):
            out += [3, g]
        elif x is not None:
            if metrics(first, g) != metrics(second, g):
                out += [3, g]
            elif rows(first, x) != rows(second, y):
                out += [4, g]
        if a.tab and b.tab:
            # items without their places
            if [it[:2] for it in a.read[g]] != [it[:2] for it in b.read[g]]:
                out += [5, g]
    if len(out) > room:
        raise No(21, len(out), NONE, 0)
    return out


def checksum(buf):
    x = 0
    for b in buf:
        x = (x * 31 + b) % 4294967291
    return x


def main():
    s = sys.stdin.buffer.read()
    i = 0
    f = bytearray()
    last = None
    put = sys.stdout.write

    def num(k):
        nonlocal i
        v = int.from_bytes(s[i:i + k], 'little')
        i += k
        return v

    def said(f):
        try:
            o = check(f)
            return f'sound {o.kind} {o.n} {o.h} {o.w} {"table" if o.tab else "bare"}'
        except No as e:
            return 'refused %d %d %d' % e.args

    def part(fn, *a):
        try:
            at, n = fn(bytes(f), *a)
            return f'{at} {n} ' + f[at:at + n].hex().upper()
        except No as e:
            return 'refused %d %d %d -' % e.args

    while i < len(s):
        op = num(1)
        if op == 0:
            k = num(1)
            put('# ' + s[i:i + k].decode() + '\n')
            i += k
        elif op == 1:
            f = bytearray()
        elif op == 2:
            k = num(2)
            f += s[i:i + k]
            i += k
        elif op == 3:
            k = num(4)
            f += bytes([num(1)]) * k
        elif op == 4:
            k = num(4)
            f[k] = num(1)
        elif op == 5:
            del f[num(4):]
        elif op == 0x10:
            put(said(f) + '\n')
        elif op == 0x11:
            g = num(8)
            put(f'glyph {g} {part(glyph, g)}\n')
        elif op == 0x12:
            g, r = num(8), num(8)
            put(f'row {g} {r} {part(row, g, r)}\n')
        elif op == 0x13:
            g, r, c = num(8), num(8), num(8)
            try:
                a = pixel(f, g, r, c)
            except No as e:
                a = 'refused %d %d %d' % e.args
            put(f'pixel {g} {r} {c} {a}\n')
        elif op == 0x14:
            g, k = num(8), num(8)
            try:
                a, v, _ = walk(f, g, k)
                if a in ('single', 'value'):
                    a += ' %X' % v
            except No as e:
                a = 'refused %d %d %d' % e.args
            put(f'item {g} {k} {a}\n')
        elif op == 0x15:
            v = num(4)
            try:
                a = 'glyph %d' % value(f, v)
            except No as e:
                a = 'refused %d %d %d' % e.args
            put(f'value {v:X} {a}\n')
        elif op == 0x16:
            vs = [num(4) for _ in range(num(1))]
            try:
                a = 'glyph %d' % sequence(f, vs)
            except No as e:
                a = 'refused %d %d %d' % e.args
            put('sequence %s %s\n' % (''.join('+%X' % v for v in vs) or '-', a))
        elif op == 0x17:
            g, asked = num(8), [num(2) for _ in range(5)]
            try:
                signed = tuple(a - 65536 if a >= 32768 else a for a in asked)
                a = 'is' if metrics(f, g) == signed else 'is not'
            except No as e:
                a = 'refused %d %d %d' % e.args
            put('metrics %d %d %d %d %d %d %s\n' % (g, *asked, a))
        # a font in pieces is answered as their join is, however it was cut
        elif op == 0x18:
            a, b = num(1), num(1)
            put(f'cuts {a} {b} {said(f[:a] + f[a:a + b] + f[a + b:])}\n')
        elif op == 0x19:
            put(f'late taken refused 22 0 {NONE} refused 22 0 {NONE}\n')
        elif 0x40 <= op < 0x80:
            k = op - 0x40
            length = k or max(len(f), 1)
            put(f'load {k} {said(b"".join(f[j:j + length] for j in range(0, len(f), length)))}\n')
        elif op == 0x20:
            which, room = num(1), num(4)
            buf = b'\xa5' * room
            try:
                out = convert(bytes(f), which, room)
                buf = out + buf[len(out):]
                last = out
                a = f'wrote {len(out)}'
            except No as e:
                a = 'refused %d %d %d' % e.args
            put(f'convert {which} {room} {a} sum {checksum(buf)}\n')
        elif op == 0x21:
            f = bytearray(last)
        elif op in (0x22, 0x23):
            room, length, g, v = num(4), num(4), num(4), num(4)
            buf = f[:room].ljust(room, b'\xa5')
            try:
                n = edit(buf, length, g, v, op == 0x22)
                f = buf[:n]
                a = f'length {n}'
            except No as e:
                a = 'refused %d %d %d' % e.args
            name = 'add' if op == 0x22 else 'drop'
            put(f'{name} {room} {length} {g} {v:X} {a} sum {checksum(buf)}\n')
        elif op == 0x24:
            last = bytes(f)
        elif op == 0x25:
            which, room = num(1), num(2)
            buf = [0xA5A5A5A5] * room
            first, second = (last, bytes(f)) if which else (bytes(f), last)
            try:
                out = differences(first, second, room)
                buf[:len(out)] = out
                a = ' '.join(map(str, ['pairs', len(out) // 2] + out))
            except No as e:
                a = 'font %d refused %d %d %d' % (e.args[3], *e.args[:3])
            put(f'differences {which} {room} {a} sum {checksum(buf)}\n')
        else:
            raise ValueError(op)


main()
