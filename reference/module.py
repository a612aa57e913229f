"""Documents 01 and 02 (E1 to E6 and E8; E3 changes no answer) in Python, written from the papers alone: the expected bytes of the tables in
crates/model/proofs, and of the programs' stored output where 01 gives another reply than a source, are worked out with it. None is captured
from the definitions or from the proved code.

Module has a method for each call: sample, temperature, spinel, modbus. Each answers the refusal's number (0: accepted) and the reply's bytes.
"""
import copy, re, struct
from fractions import Fraction

WIDTH = 4  # bytes of a counter: in the replies of 60H, in the amounts of 61H
LIMIT = 256 ** WIDTH  # a counter that would reach it is 0 again
ITEM = 1 + WIDTH  # bytes of a deduction of 61H
ACK = {7: 2, 8: 3, 10: 4, 11: 3, 12: 3, 13: 3, 14: 3}  # of a refusal that is answered, in both formats of the Spinel port
EXCEPTION = {7: 1, 8: 3, 9: 2, 10: 4, 11: 3, 12: 4, 14: 4}  # and on the Modbus port
OFF, BINARY, TEXT = 0, 0x61, 0x42  # the notice: off, on in format 97, on in format 66
NUMBER = rb'([0-9]{1,3})'
# the instructions of the text format: what stands between the code and the carriage return
TEXTS = {b'IR': NUMBER, b'OR': NUMBER, b'OS': NUMBER + rb'([HL])', b'OT': NUMBER + rb'([HL])' + NUMBER, b'OST': NUMBER + rb'([HL])' + NUMBER,
         b'RT': NUMBER, b'IS': rb'([01])', b'IX': rb'', b'E': rb'', b'AS': rb'([0-9A-Za-z])', b'SS': rb'([0-9AB])'}

def f32_bits(t):
    """The bits of the f32 nearest to t/10, ties to even, worked out in fractions."""
    if t == 0: return 0
    s = 1 if t < 0 else 0
    q = Fraction(abs(t), 10)
    e = 0
    while q >= 2: q /= 2; e += 1
    while q < 1: q *= 2; e -= 1
    m = q * (1 << 23)
    fl = m.numerator // m.denominator
    r = m - fl
    if r > Fraction(1, 2) or (r == Fraction(1, 2) and fl & 1): fl += 1
    if fl == 1 << 24: fl >>= 1; e += 1
    return (s << 31) | ((e + 127) << 23) | (fl - (1 << 23))

def crc(bs):
    c = 0xFFFF
    for b in bs:
        c ^= b
        for _ in range(8):
            c = (c >> 1) ^ 0xA001 if c & 1 else c >> 1
    return bytes([c & 255, c >> 8])

def summ(bs): return (255 - sum(bs) % 256) % 256
def be(v): return bytes([(v >> 8) & 255, v & 255])
def wide(v): return v.to_bytes(WIDTH, 'big')
def s16(h, l):
    v = h * 256 + l
    return v - 65536 if v >= 32768 else v

def spin(addr, sig, ins, data):
    b = bytes([0x2A, 0x61]) + be(len(data) + 5) + bytes([addr, sig, ins]) + bytes(data)
    return b + bytes([summ(b), 0x0D])
def mod(addr, fn, body):
    b = bytes([addr, fn]) + bytes(body)
    return b + crc(b)

def said(addr, ack, data=b''):
    """A reply of the text format: the ACK is one character."""
    return b'*B' + bytes([addr]) + ack + data + b'\r'
def code_of(body):
    """The longest of the codes that a text begins with, or nothing."""
    return max((c for c in TEXTS if body.startswith(c)), key=len, default=None)
def high(on): return b'H' if on else b'L'

class Ref(Exception):
    def __init__(self, n): self.n = n

class Out:
    def __init__(self):
        self.on = 0; self.left = 0           # samples left of a pulse, 0: none
        self.ptype = 0; self.ptime = 0       # preset
        self.th = (0, 0, 0, 0, 0)            # flags, X, Y, TIME, ERR
        self.link = (0, 0)                   # input, action: 0 none, 1 follow, 2 opposite, 3 on, 4 off at a rising edge

class Module:
    def __init__(self):
        self.stable = [0]*16; self.run = [0]*16; self.mode = [0]*16; self.cnt = [0]*16
        self.n = 20
        self.out = [Out() for _ in range(16)]
        self.notice = OFF; self.mask = 0; self.sig = 0  # the signature is that of the last 10H 01
        self.tested = True       # is SUM tested on the Spinel port
        self.sa, self.ss = 0x31, 6
        self.ma, self.ms = 0x31, 6
        self.sp = False; self.mp = False
        self.reading = None      # None fault, else tenths
        self.last = None         # last valid reading

    # ------------------------------------------------ helpers
    def reset(self):
        self.cnt = [0]*16; self.run = [0]*16
        for o in self.out: o.on = 0; o.left = 0
        self.sp = self.mp = False
    def set(self, k, on, samples=0):
        self.out[k].on = on; self.out[k].left = samples
    def remaining(self, k):
        return min(255, (self.out[k].left + 499) // 500)
    def held(self, k):
        f, x, y, _, _ = self.out[k].th
        if not f & 0x80: return False
        return not (self.reading is not None and y <= self.reading <= x)
    def clashes(self, k, f):
        """May output k get no thermostat with these flags, because it has a link?"""
        return f & 0x80 != 0 and self.out[k].link[1] != 0
    def inputs(self): return sum(b << i for i, b in enumerate(self.stable))
    def outputs(self): return sum(o.on << i for i, o in enumerate(self.out))

    # ------------------------------------------------ samples
    def sample(self, bits, room=256):
        if room < 256: return 1, b''
        edges = 0
        for i in range(16):
            b = bits >> i & 1
            if b == self.stable[i]: self.run[i] = 0; continue
            self.run[i] += 1
            if self.run[i] >= self.n:
                self.stable[i] = b; self.run[i] = 0; edges |= 1 << i
                if (self.mode[i] & 1) if b else (self.mode[i] & 2):
                    self.cnt[i] = (self.cnt[i] + 1) % LIMIT
        for o in self.out:
            if o.left:
                o.left -= 1
                if o.left == 0: o.on ^= 1
        for k, o in enumerate(self.out):
            i, action = o.link
            i = max(i - 1, 0)                # no call stores input 0 or above 16 with an action: 0 goes as 1, above 16 has no edge
            if not edges >> i & 1: continue
            if action in (1, 2): self.set(k, self.stable[i] ^ (action == 2))
            elif action in (3, 4) and self.stable[i]: self.set(k, int(action == 3))
        if self.notice == TEXT and edges & self.mask:
            each = [high(b) for b in self.stable]
            return 0, said(self.sa, b'D', b''.join(b' ' + b''.join(each[i:j]) for i, j in ((0, 5), (5, 10), (10, 15), (15, 16))))
        if self.notice and edges & self.mask:
            return 0, spin(self.sa, self.sig, 0x0D, be(self.inputs()))
        return 0, b''

    def temperature(self, good, tenths):
        if good and -1000 <= tenths <= 2000:
            for k in range(16):
                f, x, y, tm, err = self.out[k].th
                if not f & 0x80: continue
                ss = f >> 5 & 3
                if f & 8:                    # the third S: by the band, its ends included; SS 10 and 11, which no call stores with it, go as 01
                    within = y <= tenths <= x
                    self.set(k, 1 if within == (ss == 0) else 0)
                elif ss == 0:
                    if tenths > x: self.set(k, 1)
                    elif tenths < y: self.set(k, 0)
                elif ss == 1:
                    if tenths > x: self.set(k, 0)
                    elif tenths < y: self.set(k, 1)
                elif self.last is not None:
                    go = (self.last >= y and tenths < y) if f & 0x10 else (self.last <= x and tenths > x)
                    if go: self.set(k, 1 if ss == 2 else 0, 1000 * tm)
            self.reading = self.last = tenths
        else:
            self.reading = None
            for k in range(16):
                f, x, y, tm, err = self.out[k].th
                if f & 0x80:
                    if err == 1: self.set(k, 0)
                    if err == 2: self.set(k, 1)
        return 0, b''

    # ------------------------------------------------ Spinel
    def spinel(self, fr, room=256):
        fr = bytes(fr)
        if room < 256: return 1, b''
        if fr[:2] == b'*B': return self.text(fr)
        if len(fr) < 9 or len(fr) > 256: return 2, b''
        if fr[:2] != b'\x2a\x61' or fr[-1] != 0x0D or fr[2]*256 + fr[3] != len(fr) - 4: return 3, b''
        if self.tested and fr[-2] != summ(fr[:-2]): return 4, b''
        a, sig, ins = fr[4:7]
        if a not in (0xFE, 0xFF) and a != self.sa: return 5, b''
        if a == 0xFF and ins not in (0x20, 0x23, 0x25): return 6, b''
        perm = self.sp
        self.sp = False
        own = self.sa
        w = copy.deepcopy(self)
        try:
            d = w.spinel_body(ins, list(fr[7:-2]), a, sig, perm)
            self.__dict__ = w.__dict__
            r, ack = 0, 0
        except Ref as e:
            r, d = e.n, b''
            ack = ACK[r]
        if a == 0xFF: return r, b''
        return r, spin(own, sig, ack, d)

    def text(self, fr):
        """Format 66: *B, the address, a code, its parameters, a carriage return."""
        if not 5 <= len(fr) <= 32: return 2, b''
        if fr[-1] != 0x0D: return 3, b''
        a, body = fr[2], fr[3:-1]
        everyone = a == ord('%')
        if a != ord('$') and not everyone and a != self.sa: return 5, b''
        code = code_of(body)
        if everyone and code not in (b'OS', b'OT', b'OST'): return 6, b''
        perm = self.sp
        self.sp = False
        own = self.sa
        w = copy.deepcopy(self)
        try:
            ack, d = w.text_body(code, body, a == ord('$'), perm)
            self.__dict__ = w.__dict__
            r = 0
        except Ref as e:
            r, ack, d = e.n, b'%d' % ACK[e.n], b''
        return r, (b'' if everyone else said(own, ack, d))

    def text_body(self, code, body, universal, perm):
        """The ACK and the data of an accepted request."""
        if code is None: raise Ref(7)
        given = re.fullmatch(TEXTS[code], body[len(code):])
        if not given: raise Ref(8)
        given = given.groups()
        if code in (b'E', b'AS', b'SS') and universal: raise Ref(10)
        if code in (b'AS', b'SS') and not perm: raise Ref(10)
        def among(n):
            if not 1 <= n <= 16: raise Ref(11)
            return n - 1
        if code == b'IR': return b'0', high(self.stable[among(int(given[0]))])
        if code == b'OR': return b'0', high(self.out[among(int(given[0]))].on)
        if code in (b'OS', b'OT', b'OST'):
            k, on, samples = among(int(given[0])), given[1] == b'H', 0
            if code != b'OS':
                if not 1 <= int(given[2]) <= 255: raise Ref(11)
                samples = 500 * int(given[2])
            if self.held(k): raise Ref(12)
            self.set(k, int(on), samples)
        elif code == b'RT':
            if int(given[0]) != 1: raise Ref(11)
            if self.reading is None: return b'5', b''
            whole, tenth = divmod(abs(self.reading), 10)
            return b'0', b'%c%03d.%dC' % (b'-' if self.reading < 0 else b'+', whole, tenth)
        elif code == b'IS':
            if given[0] == b'1':
                if self.notice: raise Ref(11)
                self.notice, self.mask = TEXT, 0xFFFF
            else: self.notice, self.mask = OFF, 0
        elif code == b'IX': return b'0', bytes([self.notice or ord('0')])
        elif code == b'E': self.sp = True
        elif code == b'AS':
            self.sa = given[0][0]
            self.reset()
        else:
            self.ss = b'0123456789AB'.index(given[0])
            self.reset()
        return b'0', b''

    def listread(self, d, zero_all=True):
        """The places of the numbers listed, or of all for a single 00."""
        if d == [0] and zero_all: return list(range(16))
        for x in d:
            if not 1 <= x <= 16: raise Ref(11)
        return [x-1 for x in d]

    def spinel_body(self, ins, d, a, sig, perm):
        n = len(d)
        one12 = 1 <= n <= 12
        lens = {0x10: n in (1, 3), 0x11: n == 0, 0x1A: n % 8 == 0 and 8 <= n <= 96, 0x1B: n <= 12,
                0x20: one12, 0x23: 2 <= n <= 13, 0x25: one12, 0x26: n % 3 == 0 and 3 <= n <= 36,
                0x30: n == 0, 0x31: n == 0, 0x33: one12, 0x36: one12, 0x38: one12, 0x40: n % 3 == 0 and 3 <= n <= 36, 0x41: one12, 0x51: n == 1,
                0x60: one12, 0x61: n == 1 or (n % ITEM == 0 and ITEM <= n <= 12 * ITEM), 0x62: n == 1, 0x63: n == 0,
                0x6A: n % 2 == 0 and 2 <= n <= 24, 0x6B: one12, 0xE0: n == 2, 0xE3: n == 0, 0xE4: n == 0, 0xEE: n == 1,
                0xF0: n == 0, 0xFE: n == 0}
        if ins not in lens: raise Ref(7)
        if not lens[ins]: raise Ref(8)
        return getattr(self, 'i%02X' % ins)(d, a, sig, perm)

    def i10(self, d, a, sig, perm):
        if d[0] == 1:
            if self.notice: raise Ref(11)
            self.notice = BINARY; self.sig = sig
            self.mask = d[1]*256 + d[2] if len(d) == 3 else 0xFFFF
        elif d == [0]:
            self.notice = OFF; self.mask = 0
        else: raise Ref(11)
        return b''
    def i11(self, d, a, sig, perm): return bytes([self.notice]) + be(self.mask)

    @staticmethod
    def thermo_ok(f, x, y, t, e):
        if e > 2: return False
        if f & 0x80:
            if f & 7 != 1 or x < y: return False
            if f & 0x40 and (f & 8 or t == 0): return False
        return True
    def i1A(self, d, a, sig, perm):
        for j in range(0, len(d), 8):
            o, f, xh, xl, yh, yl, t, e = d[j:j+8]
            th = (f, s16(xh, xl), s16(yh, yl), t, e)
            if not 1 <= o <= 16 or not self.thermo_ok(*th): raise Ref(11)
            self.out[o-1].th = th
        if any(self.clashes(o-1, f) for o, f in zip(d[::8], d[1::8])): raise Ref(14)
        return b''
    def i1B(self, d, a, sig, perm):
        ks = self.listread(d, False) if d else range(16)
        r = b''
        for k in ks:
            f, x, y, t, e = self.out[k].th
            r += bytes([k+1, f]) + be(x) + be(y) + bytes([t, e])
        return r

    def setbytes(self, d):
        for b in d:
            if not 1 <= b & 127 <= 16: raise Ref(11)
        return [((b & 127) - 1, b >> 7) for b in d]
    def i20(self, d, a, sig, perm):
        l = self.setbytes(d)
        if any(self.held(k) for k, _ in l): raise Ref(12)
        for k, on in l: self.set(k, on)
        return b''
    def i23(self, d, a, sig, perm):
        if d[0] == 0: raise Ref(11)
        l = self.setbytes(d[1:])
        if any(self.held(k) for k, _ in l): raise Ref(12)
        for k, on in l: self.set(k, on, 500*d[0])
        return b''
    def i25(self, d, a, sig, perm):
        l = self.listread(d, False)
        if any(self.out[k].ptype == 0 for k in l): raise Ref(11)
        if any(self.held(k) for k in l): raise Ref(12)
        for k in l: self.set(k, 1 if self.out[k].ptype == 2 else 0, 500*self.out[k].ptime)
        return b''
    def i26(self, d, a, sig, perm):
        for j in range(0, len(d), 3):
            o, ty, t = d[j:j+3]
            if not 1 <= o <= 16 or ty not in (0, 2, 3) or (ty and t == 0): raise Ref(11)
            self.out[o-1].ptype, self.out[o-1].ptime = ty, t
        return b''
    def i30(self, d, a, sig, perm): return be(self.outputs())
    def i31(self, d, a, sig, perm): return be(self.inputs())
    def i33(self, d, a, sig, perm):
        return b''.join(bytes([self.out[k].on << 7 | k+1, self.remaining(k)]) for k in self.listread(d))
    def i36(self, d, a, sig, perm):
        return b''.join(bytes([self.out[k].ptype, self.out[k].ptime]) for k in self.listread(d))
    def i38(self, d, a, sig, perm):
        r = []
        for k in self.listread(d):
            f = self.out[k].th[0]
            r.append(0xA0 + (f & 8) + (f >> 4 & 7) if f & 0x80 else self.out[k].ptype)
        return bytes(r)
    def i40(self, d, a, sig, perm):
        groups = list(zip(d[::3], d[1::3], d[2::3]))
        for i, o, action in groups:
            if not 1 <= i <= 16 or not 1 <= o <= 16 or action > 4: raise Ref(11)
        for i, o, action in groups:
            if action and self.out[o-1].th[0] & 0x80: raise Ref(14)
        for i, o, action in groups:
            self.out[o-1].link = (i, action) if action else (0, 0)
        return b''
    def i41(self, d, a, sig, perm): return b''.join(bytes(self.out[k].link) for k in self.listread(d))
    def i51(self, d, a, sig, perm):
        if d[0] > 1: raise Ref(11)
        if self.reading is None: return bytes([1, 0, 0, 0])
        return bytes([1, 0x80]) + be(self.reading)

    def i60(self, d, a, sig, perm):
        if len(d) == 1 and d[0] & 63 == 0: ps = [(k, d[0] >> 7) for k in range(16)]
        else:
            ps = []
            for p in d:
                if not 1 <= p & 63 <= 16: raise Ref(11)
                ps.append(((p & 63) - 1, p >> 7))
        r = bytes([8 * WIDTH])
        for k, z in ps:
            r += wide(self.cnt[k])
            if z: self.cnt[k] = 0
        return r
    def i61(self, d, a, sig, perm):
        if len(d) == 1:
            if d[0]: raise Ref(11)
            self.cnt = [0]*16
            return b''
        numbers = d[::ITEM]
        if len(set(numbers)) < len(numbers): raise Ref(13)
        for j in range(0, len(d), ITEM):
            o, v = d[j], int.from_bytes(d[j+1:j+ITEM], 'big')
            if not 1 <= o <= 16 or v > self.cnt[o-1]: raise Ref(11)
            self.cnt[o-1] -= v
        return b''
    def i62(self, d, a, sig, perm):
        if d[0] == 0: raise Ref(11)
        self.n = d[0]
        return b''
    def i63(self, d, a, sig, perm): return bytes([self.n])
    def i6A(self, d, a, sig, perm):
        for j in range(0, len(d), 2):
            if not 1 <= d[j] <= 16 or d[j+1] > 3: raise Ref(11)
            self.mode[d[j]-1] = d[j+1]
        return b''
    def i6B(self, d, a, sig, perm): return bytes(self.mode[k] for k in self.listread(d))
    def iE0(self, d, a, sig, perm):
        if not perm or a == 0xFE: raise Ref(10)
        if d[0] > 0xFD or d[1] > 0x0B: raise Ref(11)
        self.sa, self.ss = d
        self.reset()
        return b''
    def iE3(self, d, a, sig, perm): self.reset(); return b''
    def iE4(self, d, a, sig, perm):
        if a == 0xFE: raise Ref(10)
        self.sp = True
        return b''
    def iEE(self, d, a, sig, perm):
        if not perm: raise Ref(10)
        if d[0] > 1: raise Ref(11)
        self.tested = d[0] == 1
        return b''
    def iF0(self, d, a, sig, perm): return bytes([self.sa, self.ss])
    def iFE(self, d, a, sig, perm): return bytes([self.tested])

    # ------------------------------------------------ Modbus
    def modbus(self, fr, room=256):
        fr = bytes(fr)
        if room < 256: return 1, b''
        if len(fr) < 4 or len(fr) > 256: return 2, b''
        if fr[-2:] != crc(fr[:-2]): return 4, b''
        a, fn = fr[:2]
        if a != 0 and a != self.ma: return 5, b''
        if a == 0 and fn not in (5, 15): return 6, b''
        perm = self.mp
        self.mp = False
        own = self.ma
        w = copy.deepcopy(self)
        try:
            body = w.modbus_body(fn, list(fr[2:-2]), perm)
            self.__dict__ = w.__dict__
            r, rep = 0, mod(own, fn, body)
        except Ref as e:
            r = e.n
            rep = mod(own, fn | 0x80, [EXCEPTION[r]])
        return r, (b'' if a == 0 else rep)

    @staticmethod
    def bits(v, start, q):
        v = v >> start & ((1 << q) - 1)
        n = (q + 7) // 8
        return bytes([n]) + bytes(v >> 8*i & 255 for i in range(n))

    def modbus_body(self, fn, b, perm):
        if fn not in (1, 2, 3, 4, 5, 6, 15, 16): raise Ref(7)
        # 8
        if fn <= 6:
            if len(b) != 4: raise Ref(8)
        else:
            if len(b) < 5: raise Ref(8)
        st, q = b[0]*256 + b[1], b[2]*256 + b[3]
        if fn in (1, 2) and not 1 <= q <= 2000: raise Ref(8)
        if fn in (3, 4) and not 1 <= q <= 125: raise Ref(8)
        if fn == 15 and (not 1 <= q <= 1968 or b[4] != (q + 7)//8 or len(b) != 5 + b[4]): raise Ref(8)
        if fn == 16 and (not 1 <= q <= 123 or b[4] != 2*q or len(b) != 5 + b[4]): raise Ref(8)
        val = q
        if fn in (5, 6): q = 1
        def inside(lo, hi): return lo <= st and st + q - 1 <= hi
        # coils, inputs, input registers
        if fn in (1, 2, 5, 15):
            if not inside(0, 15): raise Ref(9)
            if fn == 1: return self.bits(self.outputs(), st, q)
            if fn == 2: return self.bits(self.inputs(), st, q)
            if fn == 5:
                if val not in (0xFF00, 0): raise Ref(11)
                if self.held(st): raise Ref(12)
                self.set(st, 1 if val else 0)
                return bytes(b)
            if any(self.held(st + i) for i in range(q)): raise Ref(12)
            for i in range(q): self.set(st + i, b[5 + i//8] >> i % 8 & 1)
            return bytes(b[:4])
        if fn == 4:
            if not inside(0, 3): raise Ref(9)
            if self.reading is None: regs = [1, 0, 0, 0]
            else:
                f = f32_bits(self.reading)
                regs = [0, self.reading & 0xFFFF, f >> 16, f & 0xFFFF]
            regs = regs[st:st+q]
            return bytes([2*q]) + b''.join(map(be, regs))
        # holding registers: find the group
        grp = None
        if inside(0, 0): grp = 0
        elif inside(1, 2): grp = 1
        elif inside(100, 115): grp = 100
        elif inside(200, 215): grp = 200
        elif inside(300, 315): grp = 300
        elif inside(500, 515): grp = 500
        elif inside(600, 663): grp = 600
        else: raise Ref(9)
        if fn == 3:
            if grp in (0, 200): raise Ref(9)
            if grp == 600 and (q != 4 or st % 4): raise Ref(9)   # 600 is a multiple of 4
            k = st - grp
            if grp == 1: regs = [self.ma, self.ms][k:k+q]
            elif grp == 100: regs = [c & 0xFFFF for c in self.cnt[k:k+q]]
            elif grp == 300: regs = self.mode[k:k+q]
            elif grp == 500: regs = [(0xFF00 if self.out[i].on else 0) + self.remaining(i) for i in range(k, k+q)]
            else:
                f, x, y, t, e = self.out[k//4].th
                regs = [f, x & 0xFFFF, y & 0xFFFF, t*256 + e]
            return bytes([2*q]) + b''.join(map(be, regs))
        # writes
        if fn == 6:
            if grp == 600: raise Ref(9)
            vs, rep = [val], bytes(b)
        else:
            if grp == 0: raise Ref(9)
            if grp == 200 and q > 12: raise Ref(9)
            if grp == 500 and q != 1: raise Ref(9)
            if grp == 600 and (q != 4 or st % 4): raise Ref(9)
            vs = [b[5+2*i]*256 + b[6+2*i] for i in range(q)]
            rep = bytes(b[:4])
        k = st - grp
        if grp == 0:
            if vs[0] != 0xFF: raise Ref(11)
            self.mp = True
        elif grp == 1:
            if not perm: raise Ref(10)
            for i, v in enumerate(vs, st):
                if i == 1:
                    if not 1 <= v <= 247: raise Ref(11)
                    self.ma = v
                else:
                    if not 3 <= v <= 10: raise Ref(11)
                    self.ms = v
            self.reset()
        elif grp == 100:
            for i, v in enumerate(vs, k):
                if v: raise Ref(11)
                self.cnt[i] = 0
        elif grp == 200:
            for i, v in enumerate(vs, k):
                if v > self.cnt[i]: raise Ref(11)
                self.cnt[i] -= v
        elif grp == 300:
            for i, v in enumerate(vs, k):
                if v > 3: raise Ref(11)
                self.mode[i] = v
        elif grp == 500:
            v = vs[0]
            if v >> 8 not in (0, 255) or v & 255 == 0: raise Ref(11)
            if self.held(k): raise Ref(12)
            self.set(k, 1 if v >> 8 else 0, 500*(v & 255))
        else:
            sg = lambda v: v - 65536 if v >= 32768 else v
            if vs[0] > 255: raise Ref(11)
            th = (vs[0], sg(vs[1]), sg(vs[2]), vs[3] >> 8, vs[3] & 255)
            if not self.thermo_ok(*th): raise Ref(11)
            if self.clashes(k//4, vs[0]): raise Ref(14)
            self.out[k//4].th = th
        return rep

if __name__ == '__main__':
    for t in range(-1000, 2001):
        assert struct.unpack('>I', struct.pack('>f', t/10.0))[0] == f32_bits(t), t
    print('f32: exact rounding and double-then-float agree on -1000..2000')
    h = bytes.fromhex
    m = Module()
    assert m.spinel(h('2A61000831022604020409 0D')) == (0, h('2A610005310200 3C0D'))
    assert Module().spinel(h('2A6100083102260402040A0D')) == (4, b'')
    assert Module().spinel(h('2A61000501 02313B0D')) == (5, b'')
    m = Module(); m.spinel(spin(0x31, 1, 0x6A, [1, 3])); m.spinel(spin(0x31, 1, 0x62, [1]))
    for b in (1, 0, 1): m.sample(b)
    assert m.cnt[0] == 3
    assert m.spinel(spin(0x31, 1, 0x61, [1, 0, 0, 0, 2]))[0] == 0 and m.cnt[0] == 1
    assert m.spinel(spin(0x31, 1, 0x61, [1, 0, 0, 0, 2]))[0] == 11 and m.cnt[0] == 1
    m = Module()
    for _ in range(19): m.sample(1)
    assert m.stable[0] == 0
    m.sample(1); assert m.stable[0] == 1
    m = Module(); m.mode[0] = 3; m.n = 1; m.cnt[0] = 4294967294
    m.sample(1); assert m.spinel(spin(0x31, 1, 0x60, [1])) == (0, spin(0x31, 1, 0, h('20FFFFFFFF')))
    m.sample(0); assert m.spinel(spin(0x31, 1, 0x60, [1])) == (0, spin(0x31, 1, 0, h('2000000000')))
    m = Module(); m.cnt[:2] = 5, 5
    assert m.spinel(spin(0x31, 1, 0x61, [1, 0, 0, 0, 1, 2, 0, 0, 0, 9]))[0] == 11 and m.cnt[:2] == [5, 5]
    m = Module(); m.spinel(spin(0x31, 1, 0x23, [1, 0x81]))
    for _ in range(499): m.sample(0)
    assert m.remaining(0) == 1 and m.out[0].on
    m.sample(0); assert not m.out[0].on
    assert f32_bits(313) == 0x41FA6666
    assert Module().modbus(mod(0x31, 3, be(100) + be(125)))[0] == 9
    assert Module().modbus(mod(0x31, 3, be(100) + be(126)))[0] == 8
    print('rack table ok')
    m = Module(); m.cnt[0] = 0x00010005; m.cnt[15] = 0x12345678
    assert m.spinel(spin(0x31, 1, 0x60, [0]))[1][7:-2] == h('2000010005' + '00000000' * 14 + '12345678')
    assert m.modbus(mod(0x31, 3, be(100) + be(16)))[1][3:-2] == h('0005' + '0000' * 14 + '5678')
    assert m.modbus(mod(0x31, 6, be(200) + be(6)))[0] == 0 and m.cnt[0] == 0xFFFF
    assert m.modbus(mod(0x31, 6, be(200) + be(0xFFFF)))[0] == 0 and m.cnt[0] == 0
    assert m.spinel(spin(0x31, 1, 0x61, h('1012345679')))[0] == 11 and m.spinel(spin(0x31, 1, 0x61, h('105678')))[0] == 8
    assert m.spinel(spin(0x31, 1, 0x61, h('1012340000')))[0] == 0 and m.cnt[15] == 0x5678
    m.cnt[15] = 0x10000
    assert m.modbus(mod(0x31, 6, be(115) + be(0)))[0] == 0 and m.cnt[15] == 0
    print('counters of 32 bits ok')
    m = Module(); any_sum = h('2A61000531023000 0D')
    assert m.spinel(any_sum) == (4, b'') and m.spinel(spin(0x31, 2, 0xFE, [])) == (0, spin(0x31, 2, 0, [1]))
    assert m.spinel(spin(0x31, 2, 0xEE, [0]))[0] == 10 and m.spinel(spin(0x31, 2, 0xE4, []))[0] == 0 and m.tested
    assert m.spinel(spin(0x31, 2, 0xEE, [0])) == (0, spin(0x31, 2, 0, [])) and not m.sp
    assert m.spinel(any_sum) == (0, h('2A6100073102000000 3A0D')) and m.spinel(spin(0x31, 2, 0xE3, []))[0] == 0 and not m.tested
    assert m.modbus(h('3103006400010000')) == (4, b'')
    assert m.spinel(h('2A6100053102E4FF0D'))[0] == 0 and m.spinel(h('2A6100063102EE01FF0D'))[0] == 0 and m.spinel(any_sum) == (4, b'')
    print('test of SUM ok')
    m = Module()
    assert m.spinel(spin(0x31, 2, 0x1A, h('018900C800640000 02A900C800640000')))[0] == 0 and m.outputs() == 0
    for t, on in ((99, 2), (100, 1), (150, 1), (200, 1), (201, 2)):
        m.set(0, on & 1, 7); m.set(1, on >> 1, 7)
        m.temperature(True, t); assert m.outputs() == on and m.out[0].left == m.out[1].left == 0
        m.set(0, 1 - (on & 1), 7); m.set(1, 1 - (on >> 1), 7)
        m.temperature(True, t); assert m.outputs() == on and m.out[0].left == m.out[1].left == 0
        assert m.held(0) == m.held(1) == (on == 2)
    assert m.spinel(spin(0x31, 2, 0x38, [2, 1, 3])) == (0, spin(0x31, 2, 0, h('AAA800')))
    for f in (0xC9, 0xD9, 0xE9, 0xF9, 0x88, 0x8A, 0x8F): assert m.spinel(spin(0x31, 2, 0x1A, [3, f] + list(h('00C800640100'))))[0] == 11
    assert m.spinel(spin(0x31, 2, 0x1A, h('0369006400C80000')))[0] == 0 and not m.held(2)
    print('thermostat modes ok')
    def texts(m, *exchanges):
        """Text frames without their carriage return, each with its number and what is replied."""
        for asked, number, told in exchanges:
            given = m.spinel(b'*B' + asked + b'\r')
            assert given == (number, told and b'*B' + told + b'\r'), (asked, given)
    m = Module()
    m.n = 1; m.sample(0b110); m.temperature(True, 291)
    # the exchanges of 000 at address 1; outputs to 16, and RT in place of TR
    texts(m, (b'1OS2H', 0, b'10'), (b'1OR2', 0, b'10H'), (b'$IR3', 0, b'10H'), (b'1IR2', 0, b'10H'), (b'1OR4', 0, b'10L'), (b'1OS3H', 0, b'10'),
          (b'1OT1H20', 0, b'10'), (b'1OT5H20', 0, b'10'), (b'1OST5H20', 0, b'10'), (b'1IR29', 11, b'13'), (b'1OS25H', 11, b'13'), (b'1OR14', 0, b'10L'),
          (b'1ORT3', 8, b'13'), (b'1RT1', 0, b'10+029.1C'), (b'1TR1', 7, b'12'), (b'1IX', 0, b'100'), (b'1IS1', 0, b'10'), (b'1IX', 0, b'10B'),
          (b'1?', 7, b'12'), (b'1CP', 7, b'12'), (b'1CR15', 7, b'12'))
    assert m.outputs() == 0b10111 and m.remaining(4) == m.remaining(0) == 20 and m.remaining(1) == 0
    assert m.sample(0b1000000) == (0, b'*B1D LLLLL LHLLL LLLLL L\r')
    assert m.sample(0x8431) == (0, b'*B1D HLLLH HLLLL HLLLL H\r') and m.sample(0x8431) == (0, b'')
    assert m.spinel(spin(0x31, 9, 0x11, [])) == (0, spin(0x31, 9, 0, h('42FFFF'))) and m.spinel(spin(0x31, 9, 0x10, [1]))[0] == 11
    texts(m, (b'1IS1', 11, b'13'), (b'1IS0', 0, b'10'), (b'1IX', 0, b'100'), (b'1IS2', 8, b'13'))
    assert m.spinel(spin(0x31, 9, 0x10, h('010002')))[0] == 0 and m.mask == 2
    texts(m, (b'1IX', 0, b'10a'), (b'1IS1', 11, b'13'))
    assert m.sample(2) == (0, spin(0x31, 9, 0x0D, [0, 2])) and m.mask == 2
    # addresses and speeds: f to 5, then speed 7; the old address answers, then all is reset
    m = Module()
    m.sa = ord('f'); m.cnt[3] = 9; m.set(0, 1); m.run[1] = 3; m.mp = True
    texts(m, (b'fAS5', 10, b'f4'), (b'$E', 10, b'f4'), (b'fE', 0, b'f0'), (b'$AS5', 10, b'f4'), (b'fE', 0, b'f0'), (b'fAS5', 0, b'f0'), (b'fIX', 5, b''))
    assert m.sa == ord('5') and m.cnt[3] == m.outputs() == m.run[1] == 0 and not m.mp and m.ss == 6
    texts(m, (b'5AS5', 10, b'54'), (b'5E', 0, b'50'), (b'5SS', 8, b'53'), (b'5SS7', 10, b'54'), (b'5E', 0, b'50'), (b'5SS7', 0, b'50'), (b'5E', 0, b'50'))
    assert m.ss == 7 and m.sp and m.spinel(spin(0x35, 2, 0xE0, [0x31, 11])) == (0, spin(0x35, 2, 0, []))
    assert m.spinel(spin(0x31, 2, 0xE4, []))[0] == 0
    texts(m, (b'%IX', 6, b''), (b'%ORT1H5', 6, b''), (b'2IX', 5, b''), (b'\xFEIX', 5, b''), (b'\xFFOS1H', 5, b''), (b'1SSA', 0, b'10'))
    assert m.ss == 10
    # to all: no reply
    texts(m, (b'%OS1H', 0, b''), (b'%OT2L3', 0, b''), (b'%OST16H255', 0, b''), (b'%OS17H', 11, b''), (b'%OST1H', 8, b''), (b'%OS', 8, b''))
    assert m.outputs() == 0x8001 and m.remaining(1) == 3 and m.remaining(15) == 255
    # lengths and ends; the reasons in order
    assert m.spinel(b'*B1\r') == (2, b'') and m.spinel(b'*B1IX' + b'\r' * 28) == (2, b'') and m.spinel(b'*B1IX' + b'\r' * 27) == (8, b'*B13\r')
    assert m.spinel(b'*B1IX\n') == (3, b'') and m.spinel(b'*B2IX') == (3, b'') and m.spinel(b'*b1OS001H\r') == (3, b'') and m.spinel(b'*B1E\r', 255) == (1, b'')
    texts(m, (b'1ix', 7, b'12'), (b'1', 2, b''), (b'1OS001H', 0, b'10'), (b'1OS0001H', 8, b'13'), (b'1OS0h', 8, b'13'), (b'1OS0H', 11, b'13'), (b'1OT1H0', 11, b'13'),
          (b'1OT1H256', 11, b'13'), (b'1OT1H', 8, b'13'), (b'1E1', 8, b'13'), (b'$AS', 8, b'13'), (b'1ASa', 10, b'14'))
    # RT, and what a thermostat holds
    m = Module()
    texts(m, (b'1RT1', 0, b'15'), (b'1RT2', 11, b'13'))
    for t, told in ((0, b'10+000.0C'), (-1, b'10-000.1C'), (-1000, b'10-100.0C'), (2000, b'10+200.0C'), (-999, b'10-099.9C'), (2001, b'15')):
        m.temperature(True, t); texts(m, (b'1RT001', 0, told))
    m.out[0].th = (0x81, 300, 200, 0, 0)
    texts(m, (b'1OS1H', 12, b'13'), (b'1OT1H0', 11, b'13'), (b'%OST1H9', 12, b''), (b'1OS2H', 0, b'10'))
    print('text format ok')
    m = Module(); m.n = 1
    # outputs 1 to 4 by the four actions, at a rising edge and at a falling one, from off and from on, each in a pulse
    assert m.spinel(spin(0x31, 2, 0x40, [2, 1, 1, 2, 2, 2, 2, 3, 3, 2, 4, 4])) == (0, spin(0x31, 2, 0, []))
    for bits, was, on, left in ((2, 0, 5, 0), (0, 0, 2, 0b1100), (2, 15, 5, 0), (0, 15, 14, 0b1100), (0, 15, 15, 15), (1, 0, 0, 15), (0x8000, 15, 15, 15)):
        for k in range(4): m.set(k, was >> k & 1, 7)
        assert m.sample(bits) == (0, b'') and m.outputs() == on, (bits, was, m.outputs())
        assert [o.left for o in m.out[:4]] == [6 * (left >> k & 1) for k in range(4)]
    assert m.spinel(spin(0x31, 2, 0x41, [4, 1, 16])) == (0, spin(0x31, 2, 0, h('020402010000')))
    assert m.spinel(spin(0x31, 2, 0xE3, []))[0] == 0
    assert m.spinel(spin(0x31, 2, 0x40, [1, 2, 3, 16, 2, 0, 5, 16, 1])) == (0, spin(0x31, 2, 0, []))
    assert m.spinel(spin(0x31, 2, 0x41, [0])) == (0, spin(0x31, 2, 0, h('0201 0000 0203 0204' + '0000' * 11 + '0501')))
    for wrong in ([0, 1, 1], [17, 1, 0], [1, 0, 0], [1, 17, 1], [1, 1, 5]): assert m.spinel(spin(0x31, 2, 0x40, [1, 2, 1] + wrong))[0] == 11
    for length in (0, 1, 2, 4, 35, 37, 39): assert m.spinel(spin(0x31, 2, 0x40, [1] * length))[0] == 8
    heat = h('8100C800640000')
    assert m.spinel(spin(0x31, 2, 0x1A, b'\x02' + heat + b'\x01' + heat)) == (14, spin(0x31, 2, 3, [])) and not m.out[1].th[0]
    assert m.spinel(spin(0x31, 2, 0x1A, b'\x01' + heat + b'\x11' + heat))[0] == 11
    assert m.modbus(mod(0x31, 16, h('0258 0004 08 0081 00C8 0064 0000'))) == (14, mod(0x31, 0x90, [4]))
    assert m.modbus(mod(0x31, 16, h('025C 0004 08 0081 00C8 0064 0000')))[0] == 0 and m.held(1)
    assert m.spinel(spin(0x31, 2, 0x40, [1, 2, 1, 1, 2, 0])) == (14, spin(0x31, 2, 3, []))
    assert m.spinel(spin(0x31, 2, 0x40, [1, 2, 1, 1, 2, 5]))[0] == 11 and m.spinel(spin(0x31, 2, 0x40, [1, 2, 0]))[0] == 0
    print('links ok')
