#!/usr/bin/env python3
"""Differential test of two programs for the cipherbench script language.

    compare.py PROGRAM PROGRAM [COUNT]

Runs both on fixed scripts and on COUNT random ones (300 without it; always the
same ones), each from a file and from standard input. Standard output, exit
status and the line number of an error message must agree with each other and
with the model below. Stops with status 1 at the first difference.
"""

import collections
import itertools
import random
import re
import shutil
import subprocess
import sys
import tempfile
from pathlib import Path

# ------------------------------------------------------------------ model


class Refused(Exception):
    pass


class Mistake(Exception):
    pass


class Flat:
    def __init__(self, read, write, size):
        if size == 0 or size > 4096:
            raise Refused(1, size)
        if read > 255:
            raise Refused(3, 1)
        if write > 255:
            raise Refused(3, 2)
        self.costs = (read, write)
        self.words = dict.fromkeys(range(size), 0)

    def size(self):
        return len(self.words)

    def peek(self, a):
        if a not in self.words:
            raise Refused(9, max(a, len(self.words)))
        return self.words[a]

    def poke(self, a, w):
        self.peek(a)
        self.words[a] = w

    def read(self, a):
        return self.peek(a), self.costs[0]

    def write(self, a, w):
        self.poke(a, w)
        return self.costs[1]

    def chill(self):
        pass


class Cache:
    """A layer over the memory `below`: what both kinds share."""

    def __init__(self, below, line, sets, ways, hit):
        if hit > 255:
            raise Refused(3, 1)
        for place, good in enumerate([line in (1, 2, 4, 8, 16),
                                      sets in (1, 2, 4, 8, 16, 32, 64),
                                      1 <= ways <= 8,
                                      sets * ways <= 64], 1):
            if not good:
                raise Refused(4, place)
        self.below, self.line, self.sets, self.ways, self.hit = below, line, sets, ways, hit
        self.table = collections.defaultdict(list)
        self.size, self.peek, self.poke = below.size, below.peek, below.poke

    def read(self, a):
        self.peek(a)
        line = a // self.line
        kept = self.table[line % self.sets]
        if line in kept:
            result = self.peek(a), self.hit
        else:
            word, price = self.below.read(a)
            result = word, min(self.hit + price, 65535)
        self.keep(kept, line)
        return result

    def write(self, a, w):
        return min(self.hit + self.below.write(a, w), 65535)

    def chill(self):
        self.table.clear()
        self.below.chill()


class Direct(Cache):
    def keep(self, kept, line):
        kept[:] = [line]


class Lru(Cache):
    def keep(self, kept, line):
        kept[:] = ([line] + [other for other in kept if other != line])[:self.ways]


def number(word):
    if not re.fullmatch(rb"0*[0-9]{1,20}", word):
        raise Mistake
    value = int(word[-20:])
    if value >= 2**64:
        raise Mistake
    return value


def hexadecimal(word):
    if not re.fullmatch(rb"[0-9a-fA-F]{1,8}", word):
        raise Mistake
    return int(word, 16)


class Model:
    FORMS = {
        b"store": [str, number, number, number],
        b"layer": [str, number, number, number, number],
        b"size": [],
        b"peek": [number],
        b"poke": [number, hexadecimal],
        b"read": [number],
        b"write": [number, hexadecimal],
        b"chill": [],
    }

    def __init__(self):
        self.top = None
        self.layers = 0

    def command(self, name, *words):
        form = self.FORMS.get(name)
        if form is None or len(form) != len(words):
            raise Mistake
        given = [word if kind is str else kind(word) for kind, word in zip(form, words)]
        if name == b"store":
            if given[0] != b"flat":
                raise Mistake
            self.top, self.layers = Flat(*given[1:]), 0
            return "ok"
        if self.top is None:
            raise Mistake
        if name == b"layer":
            kind = {b"direct": Direct, b"lru": Lru}.get(given[0])
            if kind is None or self.layers == 4:
                raise Mistake
            self.top, self.layers = kind(self.top, *given[1:]), self.layers + 1
            return "ok"
        result = getattr(self.top, name.decode())(*given)
        return {
            b"size": lambda: f"{result}",
            b"peek": lambda: f"{result:08x}",
            b"read": lambda: f"{result[0]:08x} price {result[1]}",
            b"write": lambda: f"price {result}",
        }.get(name, lambda: "ok")()


def predict(script):
    """(standard output, status, line of the mistake or None)"""
    model = Model()
    answers = []
    for at, line in enumerate(script.split(b"\n"), 1):
        words = re.findall(rb"[^ \t\r]+", line.split(b"#")[0])
        if not words:
            continue
        try:
            answer = model.command(*words)
        except Refused as refused:
            answer = "refused %d place %d layer 1" % refused.args
        except Mistake:
            return "".join(answers).encode(), 1, at
        answers.append(f"{words[0].decode()}: {answer}\n")
    return "".join(answers).encode(), 0, None


# ---------------------------------------------------------------- scripts

HUGE = [2**64 - 1, 2**64 - 2, 2**63, 2**32, 2**32 + 1, 2**31, 65536, 65535]

CHECKS = b"""store flat 5 5 64
layer direct 4 2 1 1
read 0\nread 3\nread 8\nread 0\nwrite 0 1
store flat 5 5 64
layer lru 4 1 2 1
read 0\nread 4\nread 0\nread 8\nread 4\nread 0
"""
CHECK_PRICES = [6, 1, 6, 6, 6, 6, 6, 1, 6, 6, 6]

PILE = b"store flat 5 7 16\nlayer lru 2 2 2 1\nread 3\n"

# Lines that are mistakes even over a pile.
MISTAKES = [
    b"pee 0", b"PEEK 0", b"peeks 0", b"peek", b"peek 0 0", b"peek -1", b"peek +1", b"peek 0x1",
    b"peek a", b"peek 1a", b"peek 1.", b"peek 18446744073709551616",
    b"peek 99999999999999999999", b"peek 184467440737095516150",
    b"peek 340282366920938463463374607431768211457", b"peek # 0", b"pe#ek 0", b"peek \x000",
    b"peek \x0b0", b"peek\x0c0", b"peek 0\x00", b"\x00", b"\xff", b"\xc2\xa0", b"\xef\xbb\xbfsize",
    b"poke 0", b"poke 0 g", b"poke 0 123456789", b"poke 0 000000001", b"poke 0 0x1",
    b"poke 0 1 1", b"poke x 1", b"poke 0 -1", b"poke 0 #1", b"poke 16 g",
    b"read", b"read 0 0", b"read r", b"write 0", b"write 0 0 0", b"write 0 z", b"write",
    b"size 1", b"size size", b"chill 1", b"chills", b"flat", b"direct 4 2 1 1", b"0", b"-",
    b"store", b"store flat", b"store flat 1 1", b"store flat 1 1 1 1", b"store big 1 1 1",
    b"store Flat 1 1 1", b"store 1 1 1", b"store flat 1 1 x", b"store flat 300 300 x",
    b"store flat 1 18446744073709551616 1",
    b"layer", b"layer lru", b"layer lru 1 1 1", b"layer lru 1 1 1 1 1", b"layer fifo 1 1 1 1",
    b"layer LRU 1 1 1 1", b"layer lru 3 1 1 x", b"layer direct 1 1 1", b"layer direct 1 1 1 1 1",
    b"layer direct 18446744073709551616 1 1 1", b"read: 0", b"read,0",
]


def fixed_scripts():
    yield b""
    for blank in [b"\n", b"\n\n\n", b" ", b"\t\r\n", b"#", b"# only\n#\n", b"\r", b" \t \r \n#x"]:
        yield blank
    yield CHECKS
    yield CHECKS.rstrip(b"\n")
    yield CHECKS.replace(b"\n", b"\r\n")
    yield CHECKS.replace(b" ", b"\t\r ").replace(b"\n", b" # note\n \t")
    for mistake in MISTAKES:
        yield PILE + mistake + b"\nread 3\n"
        yield PILE + b"\n# note\n" + mistake
    for early in [b"size", b"peek 0", b"poke 0 1", b"read 0", b"write 0 1", b"chill",
                  b"layer lru 1 1 1 1", b"layer direct 3 3 3 300"]:
        yield b"\n" + early + b"\nstore flat 1 1 1\n"
        yield b"store flat 1 1 0\n" + early
    four = b"store flat 1 2 8\n" + b"layer lru 1 1 1 1\n" * 4
    yield four + b"read 0\nlayer lru 1 1 1 1\n"
    yield four + b"layer lru 3 3 300 300\n"
    yield four + b"store flat 1 1 1\n" + b"layer direct 1 1 1 1\n" * 5
    yield four + b"store flat 1 1 0\nlayer direct 1 1 1 1\n"
    # Every order of the refusals: all parts good, at a bound, or bad at once.
    prices = [0, 255, 256, 2**64 - 1]
    yield b"".join(b"store flat %d %d %d\nsize\n" % shape
                   for shape in itertools.product(prices, prices, [1, 0, 4096, 4097, 2**64 - 1]))
    for kind in [b"direct", b"lru"]:
        yield b"".join(b"store flat 1 1 1\nlayer %s %d %d %d %d\n" % (kind, *shape)
                       for shape in itertools.product([1, 0, 3, 16, 17, 32, 2**64 - 1],
                                                      [1, 0, 3, 32, 64, 65, 128, 2**63],
                                                      [1, 0, 2, 3, 8, 9, 2**64 - 1], prices))


def large_scripts():
    """Long words, long lines, more script and more answers than any buffer."""
    yield PILE + b"peek " + b"0" * 70_000 + b"3\nsize\n"
    yield PILE + b"#" * 200_000 + b"\nread" + b" " * 100_000 + b"3\n" + b"x" * 100_000
    yield PILE + b"read 3\nwrite 3 ABCDEF01\n\n" * 20_000
    yield PILE + b"peek 18446744073709551615\n" * 10_000 + b"peek\n" + b"read 3\n" * 1000


class Writer:
    """Writes random scripts."""

    def __init__(self, rng):
        self.rng = rng
        self.size = 1
        self.recent = [0]

    def odd(self, *often):
        """Mostly one of `often`, at times any other number."""
        rng = self.rng
        if rng.random() < 0.8:
            return rng.choice(often)
        return rng.choice([rng.randrange(300), rng.randrange(5000), rng.choice(HUGE)])

    def store(self):
        rng = self.rng
        if rng.random() < 0.3:
            price = lambda: self.odd(0, 255, 256, 5)
            size = self.odd(0, 1, 4096, 4097, 64)
        else:
            price = lambda: rng.choice([0, 1, 5, 100, 255])
            size = rng.choice([1, 2, 5, 16, 100, 1000, 4095, 4096, rng.randint(1, 4096)])
        read, write = price(), price()
        if 1 <= size <= 4096 and read <= 255 and write <= 255:
            self.size = size
        return ["store", "flat", read, write, size]

    def layer(self):
        rng = self.rng
        kind = rng.choice(["direct", "lru"])
        if rng.random() < 0.3:
            return ["layer", kind, self.odd(0, 1, 3, 8, 16, 32), self.odd(0, 1, 3, 16, 64, 128),
                    self.odd(0, 1, 3, 8, 9), self.odd(0, 1, 255, 256)]
        sets = 2 ** rng.randint(0, 6)
        ways = rng.randint(1, min(8, 64 // sets))
        return ["layer", kind, 2 ** rng.randint(0, 4), sets, ways, rng.choice([0, 1, 2, 20, 255])]

    def address(self):
        rng = self.rng
        kind = rng.random()
        if kind < 0.05:
            return rng.choice([self.size, self.size - 1, self.size + 1, 4095, 4096, *HUGE])
        if kind < 0.35:
            a = rng.choice(self.recent)
        elif kind < 0.60:
            a = self.recent[-1] + rng.randint(-2, 3)
        elif kind < 0.80:
            a = rng.choice(self.recent) + rng.choice([16, 64, 256, 1024])
        else:
            a = rng.randrange(self.size)
        a = a % self.size
        self.recent = self.recent[-12:] + [a]
        return a

    def word(self):
        rng = self.rng
        word = f"{rng.choice([0, 1, 0x2A, 2**32 - 1, rng.getrandbits(32)]):x}"
        if rng.random() < 0.3:
            word = word.rjust(rng.randint(1, 8), "0")
        return word.upper() if rng.random() < 0.3 else word

    def request(self):
        kind = self.rng.random()
        if kind < 0.60:
            return ["read", self.address()]
        if kind < 0.80:
            return ["write", self.address(), self.word()]
        if kind < 0.88:
            return ["peek", self.address()]
        if kind < 0.95:
            return ["poke", self.address(), self.word()]
        return ["size"] if kind < 0.97 else ["chill"]

    def commands(self):
        """Piles of 0 to 4 layers and requests to them. The only mistake is a
        fifth layer, where a refused store leaves the old pile."""
        rng = self.rng
        yield ["store", "flat", 1, 2, 1]
        for _ in range(rng.randint(1, 3)):
            yield self.store()
            layers = rng.randint(0, 4)
            left = rng.choice([0, 3, 30, 300])
            # Mostly the layers come first; at times a pile grows while in use.
            early = rng.random() < 0.7
            while left or layers:
                if layers and (early or not left or rng.random() < 0.1):
                    yield self.layer()
                    layers -= 1
                else:
                    yield self.request()
                    left -= 1

    def valid(self):
        rng = self.rng
        fancy = rng.random() < 0.4
        end = rng.choice([b"\n", b"\n", b"\r\n"])
        lines = []
        for command in self.commands():
            if fancy:
                lines.append(self.dress(command))
                if rng.random() < 0.1:
                    lines.append(rng.choice([b"", b" \t", b"# note", b"\t#", b"\r", b"#\xff\x00"]))
            else:
                lines.append(" ".join(map(str, command)).encode())
        script = end.join(lines)
        return script + end if rng.random() < 0.8 else script

    def dress(self, command):
        """The same command with other blanks, leading zeros, comments."""
        rng = self.rng
        blank = lambda least: bytes(rng.choices(b" \t\r", k=rng.randint(least, 3)))
        line = blank(0)
        for at, word in enumerate(command):
            word = str(word)
            if isinstance(command[at], int) and rng.random() < 0.1:
                word = "0" * rng.choice([1, 5, 30]) + word
            line += (blank(1) if at else b"") + word.encode()
        line += blank(0)
        if rng.random() < 0.2:
            line += rng.choice([b"#", b"# note", b"#1", b"# read 0", b"##\x80\x00"])
        return line

    def damaged(self):
        rng = self.rng
        script = bytearray(self.valid())
        kind = rng.randrange(7)
        at = rng.randrange(len(script))
        if kind == 0:
            return bytes(script[:at])
        if kind == 1:
            script[at:at] = rng.randbytes(rng.randint(1, 8))
            return bytes(script)
        if kind == 2:
            script[at] = rng.choice(b"\x00\n\r\t #g0-+x\xff:9")
            return bytes(script)
        if kind == 3:
            del script[at:at + rng.randint(1, 12)]
            return bytes(script)
        if kind == 4:
            return rng.randbytes(rng.randint(1, 200))
        lines = bytes(script).split(b"\n")
        at = rng.randrange(len(lines))
        if kind == 5:
            lines.insert(at, rng.choice(MISTAKES))
        else:
            lines[at] += rng.choice([b" 0", b" x", b"0", b"00000000", b" # 0", b"f" * 9])
        return b"\n".join(lines)


# ------------------------------------------------------------- comparison


def run(program, script, path):
    """(standard output, status, line of the mistake or None)"""
    given = dict(stdin=subprocess.DEVNULL) if path else dict(input=script)
    try:
        done = subprocess.run([program] + ([path] if path else []), capture_output=True,
                              timeout=60, **given)
    except subprocess.TimeoutExpired:
        return b"", "time-out", None
    message = re.fullmatch(rb"cipherbench: line ([0-9]+): expected [^\n]+\n", done.stderr)
    if message:
        return done.stdout, done.returncode, int(message.group(1))
    return done.stdout, done.returncode, done.stderr.decode(errors="replace") or None


def show(script, path, results):
    print(f"--- script (kept at {path})")
    lines = script.split(b"\n")
    for at, line in enumerate(lines[:1000], 1):
        text = repr(line)[2:-1]
        print(f"{at:5} {text if len(text) <= 200 else text[:200] + ' ...'}")
    if len(lines) > 1000:
        print("  ...")
    answers = [result[0].split(b"\n") for _, result in results]
    width = max(map(len, answers))
    answers = [mine + [b"(nothing)"] * (width - len(mine)) for mine in answers]
    first = next((at for at in range(width) if len({mine[at] for mine in answers}) > 1), None)
    for (name, (_, status, line)), mine in zip(results, answers):
        print(f"--- {name}: status {status}, mistake at line {line}")
        if first is not None:
            print(f"    answer {first + 1}: {mine[first]!r}")


def check(programs, script, path):
    expected = predict(script)
    path.write_bytes(script)
    results = [("model", expected)]
    for at, program in enumerate(programs, 1):
        results.append((f"program {at}, file", run(program, script, path)))
        results.append((f"program {at}, standard input", run(program, script, None)))
    if any(result != expected for _, result in results):
        show(script, path, results)
        sys.exit(1)
    return expected


def main():
    if len(sys.argv) not in (3, 4):
        sys.exit(__doc__.strip())
    programs = [str(Path(name).resolve()) for name in sys.argv[1:3]]
    count = int(sys.argv[3]) if len(sys.argv) == 4 else 300

    prices = [int(price) for price in re.findall(rb"price (\d+)", predict(CHECKS)[0])]
    if prices != CHECK_PRICES:
        sys.exit(f"the model itself is wrong: {prices}")

    rng = random.Random(7)
    scripts = list(fixed_scripts())
    for at in range(count):
        writer = Writer(rng)
        scripts.append(writer.damaged() if at % 2 else writer.valid())
    scripts += large_scripts()

    stopped = answers = 0
    refusals = collections.Counter()
    folder = Path(tempfile.mkdtemp())
    for script in scripts:
        output, status, _ = check(programs, script, folder / "script")
        stopped += status
        answers += output.count(b"\n")
        # Places of 3 and 4 name the offending part; those of 1 and 9 a value.
        refusals.update(re.findall(rb"\w+: refused (?:[34] place .|[19])", output))
    shutil.rmtree(folder)
    print(f"no difference: {len(scripts)} scripts ({count} random), {stopped} with a mistake, "
          f"{answers} answers, {sum(refusals.values())} refused in {len(refusals)} ways")


if __name__ == "__main__":
    main()
