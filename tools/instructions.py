#!/usr/bin/env python3
"""Counts the instructions of a call of the library: eak_run, eak_size and eak_page, for 1,000 commands of each kind.

usage: python3 tools/instructions.py ARCHIVE [OLDER]    at the top of the repository

ARCHIVE is a libcapacity_c.a (`rt lib` in crates/capacity_c makes crates/capacity_c/out/libcapacity_c.a); with OLDER, that of an older
commit, its counts stand first and the ratio last, without basement members, which it may not know. The jobs have settings, two joints, a
wall base, a soil, and then the commands, with operands drawn from one seed. Needs gcc and valgrind; writes to target/instructions alone.
"""
import os
import random
import re
import struct
import subprocess
import sys

WORK = "target/instructions"
CALLER = """#include "eak_capacity.h"
#include <stdio.h>
static uint8_t job[65536], out[400000];
static int64_t rows[8192 * 8];
int main(int count, char **names) {
    FILE *file = fopen(names[count - 1], "rb");
    size_t bytes = fread(job, 1, sizeof job, file);
    eak_size(job, bytes);
    struct eak_run_answer ran = eak_run(job, bytes, rows, sizeof rows / 8);
    if (!ran.accepted) return 1;
    eak_page(rows, 8 * ran.rows, ran.rows, out, sizeof out);
    return 0;
}
"""


def jobs(alone):
    """The job of each kind; basement members where one archive stands alone."""
    draw = random.Random(5)

    def u(value):
        return struct.pack(">I", value)

    def i(value):
        return struct.pack(">i", value)

    def size():
        return u(draw.randint(0, 10 ** draw.randint(3, 8)))

    def signed():
        return i(draw.randint(-10**7, 10**7))

    def sizes(n):
        return b"".join(size() for _ in range(n))

    def storey():
        base = draw.randint(1, 10**9)
        return sizes(2) + u(draw.randint(1, base)) + u(base) + sizes(2)

    def footing():
        sides = u(draw.randint(500, 20000)) + u(draw.randint(500, 20000))
        actions = i(draw.randint(10**5, 10**8)) + b"".join(signed() for _ in range(7))
        return sides + sizes(2) + actions + sizes(2) + bytes([draw.randint(0, 7)])

    def member():
        return u(draw.randint(500, 10000))

    def soil():
        return b"\x08\x00" + struct.pack(">f", draw.random() * 2) + bytes([draw.randint(0, 1)])

    def detail():
        depths = struct.pack(">HHH", draw.randint(0, 1000), draw.randint(0, 1000), draw.randint(1000, 2000))
        return b"\x0a" + bytes([draw.randint(0, 2)]) + depths + bytes([draw.randint(0, 1)])

    def basement():
        return b"\x0c" + draw.choice([b"\x00\x01", b"\x00\x02", b"\x01\x00"]) + (signed() + size()) * 2 + sizes(2)

    kinds = {
        "column": lambda: b"\x03" + member() + sizes(6),
        "beam": lambda: b"\x04" + member() + sizes(4) + signed() + sizes(2),
        "member without hinges": lambda: b"\x05" + member() + bytes([1, 2]) + sizes(2) + signed() + size(),
        "wall base": lambda: b"\x06" + u(draw.randint(1000, 10000)) + u(draw.randint(100, 500)) + sizes(4),
        "storey": lambda: b"\x07" + storey(),
        "footing": lambda: b"\x09" + footing(),
        "detail": detail,
        "joint": lambda: b"\x02" + bytes([draw.randint(0, 255)]) + sizes(3),
        "soil": soil,
    }
    head = b"\x01" + struct.pack(">HHH", 350, 140, 120) + b"".join(b"\x02" + bytes([n]) + sizes(3) for n in (1, 2))
    head += b"\x06" + u(3000) + u(250) + u(900000) + u(400000) + u(100000) + u(500000) + b"\x08\x00" + struct.pack(">f", 0.5) + b"\x00"
    for name, command in kinds.items():
        yield name, head + b"".join(command() for _ in range(1000)) + b"\x00"
    yield "block of 50", head + b"".join(b"\x0b\x32" + b"".join(storey() for _ in range(50)) for _ in range(20)) + b"\x00"
    each = list(kinds.values())
    yield "even mix", head + b"".join(each[n % 9]() for n in range(1000)) + b"\x00"
    if alone:
        yield "basement member", head + b"".join(basement() for _ in range(1000)) + b"\x00"


def counted(program, call, job):
    words = ["valgrind", "--tool=callgrind", "--callgrind-out-file=/dev/null", f"--toggle-collect={call}", program, job]
    said = subprocess.run(words, capture_output=True, text=True, check=True).stderr
    return int(re.search(r"Collected : (\d+)", said).group(1))


def main():
    archives = sys.argv[2:] + sys.argv[1:2]
    os.makedirs(WORK, exist_ok=True)
    with open(f"{WORK}/caller.c", "w", encoding="utf-8") as file:
        file.write(CALLER)
    for n, archive in enumerate(archives):
        subprocess.run(["gcc", "-O2", "-I", "crates/capacity_c/include", "-o", f"{WORK}/caller{n}", f"{WORK}/caller.c", archive], check=True)
    for name, data in jobs(len(archives) == 1):
        with open(f"{WORK}/job", "wb") as file:
            file.write(data)
        line = [name]
        for call in ("eak_run", "eak_size", "eak_page"):
            counts = [counted(f"{WORK}/caller{n}", call, f"{WORK}/job") for n in range(len(archives))]
            line.append(" / ".join(f"{count:,}" for count in counts) + (f" ({counts[-1] / counts[0]:.2f})" if len(counts) > 1 else ""))
        print(f"| {' | '.join(line)} |")


main()
