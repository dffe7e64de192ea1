"""Calls the shared library by ctypes: shared.py LIBRARY HEADER JOB.., at the root of the repository.

Runs every job by eak_size and eak_run, writes the listing that they give and compares it with the file NAME.out beside NAME.job; runs each
accepted one again on a word too few. Compares eak_fault with eak_size on each, and on those in docs/FORMAT.md, "Refusal 5 by operand",
with the operand named there. Tries that words after the rows, and in a refusal every word, stay as they were; the version and the structs
of the answers against the header's; calls with no elements; two soil values; and the job with the most rows.
Writes each command of each accepted job again by the eak_write calls, blocks and buildings too, and compares the bytes; the structs are
read from the header, and docs/FORMAT.md must name the same members. Writes the longest block, which fills the commands of a job; tries the
most buildings. Prints the rows of each accepted job, and 101 others, by eak_page and compares the page with the same rows set in columns
here; the columns and the values that they take are those of the document's table.
Prints what differs; the exit status is 0 only if nothing does. Standard library alone.
"""
import ctypes
import re
import runpy
import sys
from struct import pack, unpack_from

WORDS, LENT, AS_LENT = 8, 8192, 0x5A5A5A5A5A5A5A5A

# The columns of the page and the lines before a form feed.
COLUMNS, LINES = (7, 3, 13, 13, 13, 13, 13, 5), 50

# Commands in range; each operand that may be 0 is 0. The basement member stands under the wall, with VE and ME 1 and no strengths.
SETTINGS = bytes.fromhex("01 015E 008C 0078")
SOIL = bytes.fromhex("08 00 00000000 00")
FOOTING = bytes.fromhex("09 000001F4 000001F4") + bytes(49)
BASE = bytes.fromhex("06 00000064 00000064") + bytes(16)
BASEMENT = bytes.fromhex("0C 01 00 00000000 00000001 00000000 00000001") + bytes(8)
SET = (0, 0, 1, 1, 0, 0)

# The byte of a block, and the words of a set; the byte of another building, and how many of them a job may have.
BLOCK, SET_WORDS = 0x0B, 6
BUILDING, MOST_BUILDINGS = 0x0D, 16


def struct(*fields):
    """A struct of the header: its fields in their order, each 'type name'."""
    types = {"bool": ctypes.c_bool, "u32": ctypes.c_uint32, "u64": ctypes.c_uint64, "size": ctypes.c_size_t, "i32": ctypes.c_int32,
             "f32": ctypes.c_float}
    pairs = [field.split() for field in fields]
    return type("Struct", (ctypes.Structure,), {"_fields_": [(name, types[kind]) for kind, name in pairs]})


JOB_ANSWER = struct("bool accepted", "u32 number", "size offset", "size rows")
RUN_ANSWER = struct("bool accepted", "u32 number", "size offset", "size rows", "u64 failed", "u64 checks", "size needed")
FAULT_ANSWER = struct("u32 number", "size offset", "u32 command", "u32 operand")
SOIL_ANSWER = struct("u32 number", "u32 offset", "u32 value")
WRITE_ANSWER = struct("u32 number", "size offset", "size bytes")
PAGE_ANSWER = struct("u32 number", "size offset", "size rows", "size bytes")
ANSWERS = {"job": JOB_ANSWER, "run": RUN_ANSWER, "fault": FAULT_ANSWER, "soil": SOIL_ANSWER, "write": WRITE_ANSWER, "page": PAGE_ANSWER}
BYTES, ROWS, SIZE, LENT_BYTES = ctypes.c_char_p, ctypes.POINTER(ctypes.c_int64), ctypes.c_size_t, ctypes.c_void_p
COUNT, SETS = ctypes.c_uint32, ctypes.POINTER(ctypes.c_uint32)

# Each call of the header: its answer and its parameters. Those that write a command are made from the header's structs.
CALLS = {
    "eak_version": (ctypes.c_uint32, []),
    "eak_size": (JOB_ANSWER, [BYTES, SIZE]),
    "eak_fault": (FAULT_ANSWER, [BYTES, SIZE]),
    "eak_run": (RUN_ANSWER, [BYTES, SIZE, ROWS, SIZE]),
    "eak_take_down": (SOIL_ANSWER, [ctypes.c_uint8, ctypes.c_float]),
    "eak_write_end": (WRITE_ANSWER, [LENT_BYTES, SIZE]),
    "eak_write_building": (WRITE_ANSWER, [LENT_BYTES, SIZE]),
    "eak_write_block": (WRITE_ANSWER, [COUNT, SETS, SIZE, LENT_BYTES, SIZE]),
    "eak_page": (PAGE_ANSWER, [ROWS, SIZE, SIZE, LENT_BYTES, SIZE]),
}


def structs_of(header):
    """The structs of the header by their names: those of the answers, and those with the values of a command, in the order of the
    commands' bytes from 01 on; a block and another building have none."""
    types = {"bool": "bool", "uint32_t": "u32", "uint64_t": "u64", "size_t": "size", "int32_t": "i32", "float": "f32"}
    bodies = re.findall(r"^struct eak_(\w+) \{\n(.*?)^\};", header, re.M | re.S)
    structs = {name: struct(*[f"{types[kind]} {member}" for kind, member in re.findall(r"^    (\w+) (\w+);", body, re.M)])
               for name, body in bodies}
    answers = {name.removesuffix("_answer"): one for name, one in structs.items() if name.endswith("_answer")}
    return answers, {name: one for name, one in structs.items() if not name.endswith("_answer")}


def load(path, commands):
    library = ctypes.CDLL(path)
    writes = {"eak_write_" + name: (WRITE_ANSWER, [command, LENT_BYTES, SIZE]) for name, command in commands.items()}
    for name, (answer, parameters) in (CALLS | writes).items():
        call = getattr(library, name)
        call.restype, call.argtypes = answer, parameters
    return library


def values(answer):
    return tuple(getattr(answer, name) for name, _ in answer._fields_)


def run(library, job, words):
    """The answer of eak_run on so many words, and these words with one more, which was not lent."""
    lent = (ctypes.c_int64 * (words + 1))(*[AS_LENT] * (words + 1))
    return library.eak_run(job, len(job), lent, words), lent[:]


def listing(library, job):
    """The listing of a job, and the words that the call was not to write."""
    size, (ran, lent) = library.eak_size(job, len(job)), run(library, job, LENT)
    assert ran.number == 9 or values(ran)[:4] == values(size), "eak_size and eak_run differ"
    assert ran.accepted == (ran.number == 0)
    if not ran.accepted:
        assert (ran.rows, ran.failed, ran.checks) == (0, 0, 0), "a refusal with numbers"
        return f"refused {ran.number} {ran.needed if ran.number == 9 else ran.offset}\n", lent
    assert ran.needed == 0, "an accepted job that needs rows"
    end = WORDS * ran.rows
    lines = [" ".join(str(word) for word in lent[at:at + WORDS]) for at in range(0, end, WORDS)]
    lines.append(f"rows {ran.rows} failed {ran.failed} checks {ran.checks}")
    return "\n".join(lines) + "\n", lent[end:]


def run_on_too_few(library, what, job, rows, same):
    """A word too few for so many rows."""
    answer, lent = run(library, job, WORDS * rows - 1)
    same(f"{what}, a word short", ((False, 9, 0, 0, 0, 0, rows), {AS_LENT}), (values(answer), set(lent)))


def faulty(library, job):
    """The fault of a job; its number, offset and command's byte go with eak_size and the job's bytes."""
    size, fault = library.eak_size(job, len(job)), library.eak_fault(job, len(job))
    standing = job[size.offset] if size.number and size.offset < len(job) else 0
    assert values(fault)[:3] == (size.number, size.offset, standing), "eak_size and eak_fault differ"
    return fault


def named():
    """The operand at fault of each job in the document's table of refusal 5."""
    with open("docs/FORMAT.md", encoding="utf-8") as file:
        return {job: int(operand) for job, operand in re.findall(r"`(examples/refused/\S+\.job)` \| (\d+), ", file.read())}


def described():
    """The members of each command's struct, as the document's table of the calls names them."""
    with open("docs/FORMAT.md", encoding="utf-8") as file:
        rows = re.findall(r"^\| 0[1-9AC] [a-z ]+ \| `eak_write_(\w+)` \| (.+) \|$", file.read(), re.M)
    return {name: re.findall(r"`(\w+)`", members) for name, members in rows}


def write_block(library, count, words, lent, room):
    return library.eak_write_block(count, (ctypes.c_uint32 * len(words))(*words), len(words), lent, room)


def written(library, commands, job):
    """The bytes of an accepted job, each command written again by its call where the last one ended; and a byte more, as lent."""
    layouts = dict(runpy.run_path("examples/make.py")["COMMANDS"].values())
    names = dict(zip((code for code in sorted(layouts) if code not in (BLOCK, BUILDING)), commands))
    lent = (ctypes.c_uint8 * (len(job) + 1))(*[0x5A] * (len(job) + 1))
    at = 0
    while job[at]:
        if job[at] == BLOCK:
            count = job[at + 1]
            words = unpack_from(f">{SET_WORDS * count}I", job, at + 2)
            answer = write_block(library, count, words, ctypes.byref(lent, at), len(job) - at)
            assert answer.bytes, f"the block at {at} is refused with {answer.number}"
            at += answer.bytes
            continue
        if job[at] == BUILDING:
            answer = library.eak_write_building(ctypes.byref(lent, at), len(job) - at)
            assert answer.bytes, f"the building at {at} is refused with {answer.number}"
            at += answer.bytes
            continue
        name, kinds = names[job[at]], re.findall(r":(\w)", layouts[job[at]])
        operands = unpack_from(">" + "".join(kinds), job, at + 1)
        answer = getattr(library, "eak_write_" + name)(commands[name](*operands), ctypes.byref(lent, at), len(job) - at)
        assert answer.bytes, f"{name} at {at} is refused with {answer.number}"
        at += answer.bytes
    library.eak_write_end(ctypes.byref(lent, at), len(job) - at)
    return bytes(lent)


def page_of(rows):
    """The page of rows, each a list of words."""
    lines = ["".join(str(word).rjust(width) for word, width in zip(row, COLUMNS)) + "\n" for row in rows]
    return "\f".join("".join(lines[at:at + LINES]) for at in range(0, len(lines), LINES)).encode()


def printed(library, rows, room):
    """The answer of eak_page for rows, and the bytes lent: so many, and a byte more, as lent."""
    words = (ctypes.c_int64 * (WORDS * len(rows)))(*[word for row in rows for word in row])
    lent = (ctypes.c_uint8 * (room + 1))(*[0x5A] * (room + 1))
    answer = library.eak_page(words, len(words), len(rows), lent, room)
    return values(answer), bytes(lent)


def compare_page(library, what, rows, same):
    page = page_of(rows)
    same(what, ((0, 0, 0, len(page)), page + b"\x5A"), printed(library, rows, len(page)))


def columns():
    """The columns of the page in the document's table: width, first and last place, least and greatest value."""
    with open("docs/FORMAT.md", encoding="utf-8") as file:
        rows = re.findall(r"^\| [0-7](?:, [a-z ]+)? \| (\d+) \| (\d+) to (\d+) \| (?:(\S+) to (\S+)|the same) \|$", file.read(), re.M)
    whole = []
    for width, first, last, least, most in rows:
        limits = [int(text.replace(",", "").replace("−", "-")) for text in (least, most) if text] or whole[-1][3:]
        whole.append([int(width), int(first), int(last), *limits])
    return whole


def limits_of_columns(library, same):
    """Each value at a limit is printed at its places, each one beyond it is refused."""
    described, end = columns(), 0
    same("the columns", list(COLUMNS), [column[0] for column in described])
    for word, (width, first, last, least, most) in enumerate(described):
        same(f"the places of word {word}", (end + 1, end + width), (first, last))
        end = last
        for value, number in ((least - 1, 12), (least, 0), (most, 0), (most + 1, 12)):
            row = [value if place == word else 0 for place in range(WORDS)]
            answer, page = printed(library, [row], 81)
            same(f"word {word} at {value}", number, answer[0])
            if number == 0:
                same(f"word {word} at {value}", str(value).rjust(width).encode(), page[first - 1:last])


def refused_pages(library, same):
    """Too few words, a number of rows that no words suffice for, a value too wide, too few bytes; no rows."""
    lent = (ctypes.c_uint8 * 81)(*[0x5A] * 81)
    row = (ctypes.c_int64 * WORDS)(7, 3, 186667)
    wide = (ctypes.c_int64 * WORDS)(7, 100)
    same("a page of a row in seven words", (9, 0, 1, 0), values(library.eak_page(wide, WORDS - 1, 1, lent, 81)))
    for n in (2 ** 61, 2 ** 64 - 1):
        same(f"a page of {n} rows", (9, 0, n, 0), values(library.eak_page(row, WORDS, n, lent, 81)))
    same("a page with word 1 at 100", (12, 0, 0, 0), values(library.eak_page(wide, WORDS, 1, lent, 80)))
    same("a page in 80 bytes", (11, 0, 0, 0), values(library.eak_page(row, WORDS, 1, lent, 80)))
    same("a page of no rows", (0, 0, 0, 0), values(library.eak_page(row, 0, 0, lent, 0)))
    same("the bytes of refused pages", {0x5A}, set(lent))


def no_elements(library, same):
    """Calls that are lent no bytes and no words."""
    one = (ctypes.c_int64 * 1)(AS_LENT)
    same("eak_size of no bytes", (False, 1, 0, 0), values(library.eak_size(b"", 0)))
    same("eak_fault of no bytes", (1, 0, 0, 0), values(library.eak_fault(b"", 0)))
    same("eak_run of no bytes, no words", (False, 1, 0, 0, 0, 0, 0), values(library.eak_run(b"", 0, one, 0)))
    for what, job, expected in (("no rows", SETTINGS, (True, 0, 0, 0, 0, 0, 0)), ("a row", SETTINGS + BASE, (False, 9, 0, 0, 0, 0, 1))):
        same(f"eak_run of {what}, no words", expected, values(library.eak_run(job + b"\0", len(job) + 1, one, 0)))
    same("the word after no words", AS_LENT, one[0])


def most_rows(library, most, same):
    """The job with the most rows: a wall base that is not slender, with no moment, so that q, 3.50, is the coefficient of the basement
    members under it, of which each fails by its shear and by its moment. A member more is refused."""
    members = 4094
    start = SETTINGS + BASE + BASEMENT * members
    job = start + b"\0"
    same("the most rows", (True, 0, 0, most), values(library.eak_size(job, len(job))))
    answer, lent = run(library, job, WORDS * most)
    same("their run", ((True, 0, 0, most, most, most, 0), AS_LENT), (values(answer), lent[-1]))
    same("their verdicts", [128] + [1, 2] * members, lent[7::WORDS])
    end = len(start) - len(BASEMENT)
    same("the last two", [end, 0x0C, 4, -4, 0, 0, 0, 1, end, 0x0C, 4, -4, 0, 0, 0, 2], lent[-2 * WORDS - 1:-1])
    run_on_too_few(library, "the most rows", job, most, same)
    more = start + BASEMENT + b"\0"
    same("a member more", (False, 8, len(start), 0), values(library.eak_size(more, len(more))))


def refused_writes(library, commands, most, same):
    """Values out of range, too few bytes, and the command with the most bytes."""
    lent = (ctypes.c_uint8 * most)(*[0x5A] * most)
    settings, joint, footing, basement = (commands[name] for name in ("settings", "joint", "footing", "basement"))
    same("an id of 300", (5, 0, 0), values(library.eak_write_joint(joint(300, 0, 0, 0), lent, most)))
    same("q 70,000 in no bytes", (5, 0, 0), values(library.eak_write_settings(settings(70000, 140, 120), lent, 0)))
    same("settings in six bytes", (11, 0, 0), values(library.eak_write_settings(settings(350, 140, 120), lent, 6)))
    same("flags 8 in no bytes", (5, 0, 0), values(library.eak_write_footing(footing(500, 500, flags=8), lent, 0)))
    for what, hinge in (("joint 300", (0, 300)), ("a wall with id 1", (1, 1)), ("a wall with id 256", (1, 256)), ("place 2", (2, 0))):
        same(f"a basement member, {what}", (5, 0, 0), values(library.eak_write_basement(basement(*hinge), lent, 0)))
    same("a basement member in 26 bytes", (11, 0, 0), values(library.eak_write_basement(basement(0, 255), lent, 26)))
    same("the end in no bytes", (11, 0, 0), values(library.eak_write_end(lent, 0)))
    same("another building in no bytes", (11, 0, 0), values(library.eak_write_building(lent, 0)))
    same("the bytes of refused commands", {0x5A}, set(lent))
    same("the most bytes", (0, 0, most), values(library.eak_write_footing(footing(500, 500), lent, most)))
    same("a footing", FOOTING, bytes(lent))


def blocks(library, defined, same):
    """The longest block written and read; counts, words and room at their limits; and the commands that a block counts as."""
    most, width = defined["EAK_MOST_SETS"], 2 + 4 * SET_WORDS * defined["EAK_MOST_SETS"]
    same("the words of a set", defined["EAK_SET_WORDS"], SET_WORDS)
    lent = (ctypes.c_uint8 * (width + 1))(*[0x5A] * (width + 1))
    for what, number, count, words, room in (
            ("no sets", 5, 0, SET, width), ("65 sets", 5, most + 1, SET * (most + 1), width), ("320 sets", 5, 320, SET * 320, width),
            ("a word short", 5, most, (SET * most)[:-1], 0), ("J above J0", 5, 2, SET + (0, 0, 2, 1, 0, 0), 0),
            ("a byte short", 11, most, SET * most, width - 1), ("no bytes", 11, 1, SET, 0)):
        same(f"a block, {what}", (number, 0, 0), values(write_block(library, count, words, lent, room)))
    same("the bytes of refused blocks", {0x5A}, set(lent))
    same("a block of 64", (0, 0, width), values(write_block(library, most, SET * most + (7,), lent, width)))
    block, last = bytes(lent)[:width], bytes(lent)[width]
    same("its bytes", (bytes([BLOCK, most]) + pack(">6I", *SET) * most, 0x5A), (block, last))
    before = SETTINGS + BASE + SOIL * (4096 - 2 - most)
    job = before + block + b"\0"
    same("4,096 commands with a block", (True, 0, 0, 1 + most), values(library.eak_size(job, len(job))))
    job = before + SOIL + block + b"\0"
    same("4,097 commands with a block", (8, len(before + SOIL), BLOCK, 0), values(library.eak_fault(job, len(job))))


def buildings(library, same):
    """Another building written; sixteen of them in a job, a seventeenth, one without settings, and one that asks for the wall before."""
    lent = (ctypes.c_uint8 * 2)(*[0x5A] * 2)
    same("another building", (0, 0, 1), values(library.eak_write_building(lent, 2)))
    same("its byte", bytes([BUILDING, 0x5A]), bytes(lent))
    begun = bytes([BUILDING]) + SETTINGS
    most = SETTINGS + begun * (MOST_BUILDINGS - 1)
    for what, expected, job in (
            ("sixteen buildings", (0, 0, 0, 0), most), ("seventeen", (13, len(most), BUILDING, 0), most + begun),
            ("another building first", (4, 0, BUILDING, 0), begun),
            ("another building without settings", (4, len(SETTINGS) + 1, 0, 0), SETTINGS + bytes([BUILDING])),
            ("a wall of the building before", (6, len(SETTINGS + BASE + begun), BASEMENT[0], 0), SETTINGS + BASE + begun + BASEMENT)):
        same(what, expected, values(library.eak_fault(job + b"\0", len(job) + 1)))


def main(path, header, jobs):
    with open(header, encoding="utf-8") as file:
        header = file.read()
    defined = {name: int(value) for name, value in re.findall(r"^#define (EAK_\w+) (\d+)$", header, re.M)}
    answers, commands = structs_of(header)
    library, faults, operands = load(path, commands), [], named()

    def same(what, expected, found):
        if expected != found:
            faults.append(f"{what}: expected {expected!r}, found {found!r}")

    same("the version", defined["EAK_VERSION"], library.eak_version())
    same("the words of a row", defined["EAK_ROW_WORDS"], WORDS)
    same("the answers", {name: one._fields_ for name, one in answers.items()}, {name: one._fields_ for name, one in ANSWERS.items()})
    most_rows(library, defined["EAK_MOST_ROWS"], same)
    no_elements(library, same)
    same("tangent 0.7", (0, 0, 6999), values(library.eak_take_down(0, 0.7)))
    same("tangent 2.5", (5, 0, 0), values(library.eak_take_down(0, 2.5)))
    same("the members", {name: [member for member, _ in command._fields_] for name, command in commands.items()}, described())
    refused_writes(library, commands, defined["EAK_COMMAND_BYTES"], same)
    blocks(library, defined, same)
    buildings(library, same)
    refused_pages(library, same)
    limits_of_columns(library, same)
    compare_page(library, "a page of 101 rows", [[n, 3, 1000 * n, -n, 0, n ** 5, -(n ** 5), n % 4] for n in range(101)], same)
    for name in jobs:
        with open(name, "rb") as file, open(name.removesuffix(".job") + ".out", encoding="utf-8") as out:
            job = file.read()
            found, later = listing(library, job)
            same(name, out.read(), found)
            fault = faulty(library, job)
            same(f"{name}: operand at fault", operands.pop(name, 0), fault.operand)
            same(f"{name}: words as lent", {AS_LENT}, set(later))
            if fault.number == 0:
                run_on_too_few(library, name, job, found.count("\n") - 1, same)
                same(f"{name}: written again", job + b"\x5A", written(library, commands, job))
                compare_page(library, f"{name}: page", [[int(word) for word in line.split()] for line in found.splitlines()[:-1]], same)
    same("the operands of jobs that were not run", {}, operands)
    print("\n".join(faults) or f"{len(jobs)} jobs agree")
    return 1 if faults or not jobs else 0


if __name__ == "__main__":
    sys.exit(main(sys.argv[1], sys.argv[2], sys.argv[3:]))
