"""Writes the jobs of this folder and of refused/: python3 make.py

Beside each NAME.job it writes NAME.elements: a line for each command and each set of a block, its offset in the file and the element
that it is. The offset is the first word of a row, so the list names the element of a row and of a refusal.
A job is a list of commands, each with its element and its operands by name; docs/FORMAT.md explains each name.
Forces are newtons, moments newton metres, lengths millimetres, q, gj, gf and mu hundredths.
"""
import os
import struct

# command: (its byte, its operands in the file's order); B is u8, H u16, I u32, i i32, f f32
COMMANDS = {
    "settings":  (0x01, "q:H gj:H gf:H"),
    "joint":     (0x02, "id:B RB:I RC:I EB:I"),
    "column":    (0x03, "length:I R1plus:I R2plus:I R1minus:I R2minus:I VE:I VR:I"),
    "beam":      (0x04, "length:I R1plus:I R2plus:I R1minus:I R2minus:I V0:i VE:I VR:I"),
    "no_hinges": (0x05, "length:I joint1:B joint2:B ME1:I ME2:I V0:i VR:I"),
    "wall_base": (0x06, "length:I thickness:I MR:I ME:I VE:I VR:I"),
    "storey":    (0x07, "ME:I VE:I J:I J0:I VR:I MS:I"),
    "soil":      (0x08, "kind:B value:f sensitive:B"),
    "footing":   (0x09, "B:I L:I MR:I ME:I NV:i NE:i XV:i XE:i YV:i YE:i HV:i HE:i U:I P:I flags:B"),
    "detail":    (0x0A, "place:B xu:H xy:H mu:H lap:B"),
    "block":     (0x0B, "count:B"),  # then so many sets, each the operands of a storey
    "basement":  (0x0C, "place:B id:B VV:i VE:I MV:i ME:I VR:I MR:I"),
    "building":  (0x0D, ""),  # then its settings
}
END = b"\x00"


def command(name, element, **operands):
    """One command: its element, and its bytes: its byte, then each operand big-endian in its width."""
    byte, fields = COMMANDS[name]
    data = bytes([byte])
    for field in fields.split():
        operand, kind = field.split(":")
        data += struct.pack(">" + kind, operands.pop(operand))
    assert not operands, f"{name} has no operand {list(operands)}"
    return element, data


def block(element, *storeys):
    """Storeys in a block: its byte and the count, then a set for each storey, which is its command without the byte."""
    sets = [(name, data[1:]) for name, data in storeys]
    return [command("block", element, count=len(sets)), *sets]


def building(name, q, gj, gf, *commands):
    """A building of a file: its settings and its commands; each element is named with the building."""
    settings = command("settings", "settings", q=q, gj=gj, gf=gf)
    return [(f"{name}: {element}", data) for element, data in (settings, *commands)]


def campus(*buildings):
    """The commands of buildings, one after the other, with what begins another one between them."""
    first, *others = buildings
    return [*first, *(part for other in others for part in (command("building", "another building"), *other))]


def write(folder, name, commands):
    """Writes a job, its commands and then the end, and the list of its elements."""
    data, elements = b"", ""
    for element, command_bytes in (*commands, ("end", END)):
        elements += f"{len(data)} {element}\n"
        data += command_bytes
    with open(os.path.join(folder, name + ".job"), "wb") as file:
        file.write(data)
    with open(os.path.join(folder, name + ".elements"), "w", encoding="utf-8") as file:
        file.write(elements)


SETTINGS = command("settings", "settings", q=350, gj=140, gf=120)
GRANULAR, COHESIVE = 0, 1
# Places of a detail; places of a basement member, where its nearest possible hinge is.
COLUMN, BEAM, WALL_BASE = 0, 1, 2
JOINT, WALL = 0, 1
# Flags of a footing: bits 0 and 1 (uncertainties minimised, strict tolerances), and bit 2 (full contact, so that P counts).
BOTH, CONTACT = 3, 4

# A beam: end 1 is the left one; R1plus and R2minus are strengths in hogging, R2plus and R1minus in sagging.
B1 = dict(length=5600, R1plus=245000, R2plus=150000, R1minus=140000, R2minus=260000, VE=55000)

# One element written rightly and with a mistake; the commands say which operand is wrong.
C1 = dict(length=3000, R1plus=200000, R2plus=200000, R1minus=180000, R2minus=210000, VE=80000, VR=180000)
C2 = dict(length=3000, R1plus=50000, R2plus=50000, R1minus=50000, R2minus=50000, VE=80000, VR=60000)
C3 = dict(length=2500, R1plus=180000, R2plus=165000, R1minus=170000, R2minus=185000, VE=62000, VR=215000)
F1 = dict(B=2200, L=2200, MR=260000, ME=130000, NV=800000, NE=0, XV=20000, XE=60000,
          YV=0, YE=0, HV=15000, HE=55000, U=0, P=100000, flags=CONTACT)
F2 = dict(B=1800, L=1800, MR=260000, ME=130000, NV=800000, XV=50000, XE=110000,
          YV=0, YE=0, HV=15000, HE=55000, U=0, P=0, flags=0)
F3 = dict(B=2000, L=3000, MR=400000, ME=200000, NV=1000000, NE=100000, XV=50000, XE=20000,
          YV=0, YE=0, HV=20000, HE=60000, U=0, P=100000)
F4 = dict(B=2000, L=2600, MR=260000, ME=130000, NV=650000, NE=90000, XV=-40000, XE=110000,
          YV=0, YE=25000, HV=15000, HE=90000, U=50000, P=60000)
N1 = dict(length=3000, ME1=60000, ME2=60000, V0=-20000, VR=130000)
N2 = dict(length=3200, ME1=110000, ME2=110000, V0=35000, VR=250000)
N3 = dict(length=3200, ME1=110000, ME2=125000, V0=35000, VR=250000)
K1 = dict(id=1, VV=-12000, VE=46000, MV=18000, ME=71000, VR=170000, MR=260000)

# The base of the wall of wall.job, and the wall's parts in two basement storeys of 3.0 m. From the base down the seismic moment falls from
# 4,200,000 N·m to 600,000 and then to 0, so the seismic shear is 1,200,000 N in the first basement and 200,000 N in the second.
W1 = dict(length=4000, thickness=250, MR=8500000, ME=4200000, VE=1100000, VR=3200000)
P1 = dict(place=WALL, id=0, VV=25000, VE=1200000, MV=-60000, ME=4200000, VR=3150000, MR=11200000)
P2 = dict(place=WALL, id=0, VV=-8000, VE=200000, MV=-150000, ME=600000, VR=900000, MR=1700000)


def times(factor, operands, names):
    """The operands, those named multiplied by a factor and rounded: a wrong unit, or another section."""
    return {name: round(value * factor) if name in names.split() else value for name, value in operands.items()}


def turned(value):
    """The binary32 whose bytes are those of a value in the wrong order, the least significant first."""
    return struct.unpack(">f", struct.pack("<f", value))[0]


# A wall of forty storeys of 3.2 m above its base, 7,500 mm long: of every five storeys the thickness, VR and MS.
FIVES = ((500, 1900000, 76000000), (500, 1500000, 72000000), (500, 1200000, 52000000), (400, 900000, 35000000),
         (400, 650000, 26000000), (400, 600000, 24000000), (300, 540000, 22000000), (300, 500000, 22000000))


def shear(storey):
    """The seismic shear of a storey of this wall in whole kN, from 1,000 at the base (0) to 101 at the top (40)."""
    return 1000 * round(100 + 900 * ((41 - storey) / 41) ** 2)


def moment(storey):
    """The seismic moment at its foot: the shears from there up, each over 3.2 m."""
    return sum(map(shear, range(storey, 41))) * 32 // 10


def tall(storey):
    """The operands of a storey. The inertia is thickness · length³ / 12, in cm⁴."""
    thickness, VR, MS = FIVES[(storey - 1) // 5]
    J, J0 = (side * 7500 ** 3 // 120000 for side in (thickness, 500))
    return dict(ME=moment(storey), VE=shear(storey), J=J, J0=J0, VR=VR, MS=MS)


# A wall of twelve storeys of 3.0 m above its base, 5,000 mm long: the seismic shears in kN from the base up; of every two storeys the
# thickness, VR and MS.
SHEARS = (900, 870, 825, 770, 710, 645, 575, 500, 420, 340, 255, 170, 85)
TWOS = ((300, 1700000, 30000000), (300, 1500000, 25000000), (250, 1250000, 17000000), (250, 1000000, 10000000),
        (200, 650000, 9000000), (200, 450000, 8500000))


def medium(storey):
    """The operands of a storey, ME from the shears above as in the taller wall."""
    thickness, VR, MS = TWOS[(storey - 1) // 2]
    J, J0 = (side * 5000 ** 3 // 120000 for side in (thickness, 300))
    return dict(ME=3000 * sum(SHEARS[storey:]), VE=1000 * SHEARS[storey], J=J, J0=J0, VR=VR, MS=MS)


def frame(VR):
    """A storey of a frame, by the shear strength of its beam at end 2."""
    return [
        SETTINGS,
        command("joint", "joint 1, both ends of N1", id=1, RB=210000, RC=380000, EB=120000),
        command("column", "column C1, outer", **C3 | dict(VR=199000)),
        command("beam", "beam B1, end 1", **B1, V0=82000, VR=180000),
        command("beam", "beam B1, end 2", **B1, V0=-88000, VR=VR),
        command("no_hinges", "beam N1, short and deep", joint1=1, joint2=1, **N2),
    ]


STRENGTHS = "R1plus R2plus R1minus R2minus"
TANGENT_35, RADIANS_35 = 0.70020754, 0.61086524

JOBS = {
    # A storey of a frame: three joints, two columns, both ends of a beam, two members without hinges.
    "frame": [
        SETTINGS,
        command("joint", "joint 1, left of N1", id=1, RB=210000, RC=380000, EB=120000),
        command("joint", "joint 2, right of N1", id=2, RB=560000, RC=460000, EB=250000),
        command("joint", "joint 3, both ends of N2", id=3, RB=300000, RC=900000, EB=80000),
        command("column", "column C1, outer", length=2500, R1plus=180000, R2plus=165000, R1minus=170000, R2minus=185000, VE=62000, VR=215000),
        command("column", "column C2, inner", length=2500, R1plus=240000, R2plus=220000, R1minus=240000, R2minus=220000, VE=70000, VR=260000),
        command("beam", "beam B1, end 1", **B1, V0=82000, VR=180000),
        command("beam", "beam B1, end 2", **B1, V0=-88000, VR=180000),
        command("no_hinges", "beam N1, short and deep", length=3200, joint1=1, joint2=2, ME1=110000, ME2=125000, V0=35000, VR=250000),
        command("no_hinges", "column N2, stiff", length=2500, joint1=3, joint2=3, ME1=60000, ME2=45000, V0=0, VR=180000),
    ],
    # Two storeys with the same joint id: in the second the beam is strengthened, so the joint is given again with its new sum.
    "revised": [
        SETTINGS,
        command("joint", "joint 1, storey 1", id=1, RB=210000, RC=380000, EB=120000),
        command("beam", "beam B1, end 1, storey 1", **B1, V0=82000, VR=180000),
        command("no_hinges", "member N1, storey 1", joint1=1, joint2=1, **N2),
        command("joint", "joint 1, storey 2, given again", id=1, RB=280000, RC=380000, EB=120000),
        command("beam", "beam B1, end 1, storey 2, strengthened", **B1 | dict(R1plus=315000), V0=82000, VR=200000),
        command("no_hinges", "member N1, storey 2", joint1=1, joint2=1, **N2),
    ],
    # A storey whose beam fails at end 2, and the same with a greater VR there: alike in every byte but the four of this VR.
    "strength": frame(VR=160000),
    "stronger": frame(VR=175000),
    # Shears that the strengths give and shears that q caps: a column in two storeys, each also with a larger section; a beam with one of
    # each; two wall bases that differ in 1 N·m of the seismic moment.
    "caps": [
        SETTINGS,
        command("column", "column C1, storey 1", **C1 | dict(VR=200000)),
        command("column", "column C1, storey 1, larger section", **times(1.3, C1, STRENGTHS) | dict(VR=260000)),
        command("column", "column C1, storey 2", **C1 | dict(VE=50000, VR=200000)),
        command("column", "column C1, storey 2, larger section", **times(1.3, C1, STRENGTHS) | dict(VE=50000, VR=260000)),
        command("beam", "beam B2, end 1", length=6000, R1plus=300000, R2plus=150000, R1minus=100000, R2minus=180000,
                V0=60000, VE=24000, VR=140000),
        command("wall_base", "wall W1, base", length=3000, thickness=300, MR=5000000, ME=1857142, VE=900000, VR=3200000),
        command("wall_base", "wall W2, base", length=3000, thickness=300, MR=5000000, ME=1857143, VE=900000, VR=3200000),
    ],
    # A wall of five storeys above its base; it becomes thinner and then shorter.
    "wall": [
        SETTINGS,
        command("wall_base", "wall W1, base", length=4000, thickness=250, MR=8500000, ME=4200000, VE=1100000, VR=3200000),
        command("storey", "wall W1, storey 1", ME=3100000, VE=1020000, J=133333333, J0=133333333, VR=3000000, MS=8500000),
        command("storey", "wall W1, storey 2", ME=2100000, VE=880000, J=133333333, J0=133333333, VR=2500000, MS=6500000),
        command("storey", "wall W1, storey 3", ME=1300000, VE=680000, J=106666667, J0=133333333, VR=2000000, MS=4000000),
        command("storey", "wall W1, storey 4", ME=600000, VE=430000, J=106666667, J0=133333333, VR=1400000, MS=3000000),
        command("storey", "wall W1, storey 5", ME=150000, VE=160000, J=45000000, J0=133333333, VR=800000, MS=2200000),
    ],
    # A wall of forty storeys, then a low one of the same section, whose storey 1 has the operands of storey 39 of the first.
    "tower": [
        SETTINGS,
        command("wall_base", "wall W1, base", length=7500, thickness=500, MR=76000000, ME=moment(0), VE=shear(0), VR=2000000),
        *(command("storey", f"wall W1, storey {storey}", **tall(storey)) for storey in range(1, 41)),
        command("wall_base", "wall W2, base", length=7500, thickness=500, MR=24000000, ME=1065600, VE=130000, VR=800000),
        command("storey", "wall W2, storey 1, like storey 39 of W1", **tall(39)),
        command("storey", "wall W2, storey 2", **tall(40) | dict(VR=400000)),
    ],
    # A wall of twelve storeys in one block; then the detail of its base.
    "block": [
        SETTINGS,
        command("wall_base", "wall W1, base", length=5000, thickness=300, MR=30000000, ME=3000 * sum(SHEARS), VE=900000, VR=1800000),
        *block("wall W1, block of storeys 1 to 12",
               *(command("storey", f"wall W1, storey {storey}", **medium(storey)) for storey in range(1, 13))),
        command("detail", "wall W1, base section", place=WALL_BASE, xu=131, xy=250, mu=1000, lap=0),
    ],
    # A building with basement storeys, below the hinges of its frames and of a wall: columns under two joints, one of which is given again;
    # two parts of the wall.
    "basement": [
        SETTINGS,
        command("joint", "joint 1, ground floor, axis 1", id=1, RB=210000, RC=380000, EB=120000),
        command("joint", "joint 2, ground floor, no beam in this direction", id=2, RB=0, RC=380000, EB=0),
        command("basement", "column K1, first basement, axis 1", place=JOINT, **K1),
        command("basement", "column K2, first basement, under joint 2", place=JOINT, id=2, VV=9000, VE=30000, MV=-14000, ME=45000,
                VR=125000, MR=175000),
        command("joint", "joint 1, ground floor, axis 3, given again", id=1, RB=280000, RC=380000, EB=120000),
        command("basement", "column K1, first basement, axis 3", place=JOINT, **K1),
        command("wall_base", "wall W1, base, ground floor", **W1),
        command("storey", "wall W1, storey 1", ME=3100000, VE=1020000, J=133333333, J0=133333333, VR=3000000, MS=8500000),
        command("storey", "wall W1, storey 2", ME=2100000, VE=880000, J=133333333, J0=133333333, VR=2500000, MS=6500000),
        command("basement", "wall W1, first basement", **P1),
        command("basement", "wall W1, second basement", **P2),
    ],
    # Three buildings of a campus, each with settings of its own and with joints from 1 on. The column C1 and the member N1 have the same
    # operands in the hall as in another building, the footing F1 in the hall and in the workshop.
    "campus": campus(
        building(
            "hall", 350, 140, 120,
            command("joint", "joint 1", id=1, RB=210000, RC=380000, EB=120000),
            command("joint", "joint 2", id=2, RB=560000, RC=460000, EB=250000),
            command("column", "column C1", **C3),
            command("no_hinges", "member N1", joint1=1, joint2=2, **N3),
            command("soil", "granular soil, tangent 0.7", kind=GRANULAR, value=0.7, sensitive=0),
            command("footing", "footing F1", **F1),
        ),
        building(
            "library", 300, 130, 120,
            command("joint", "joint 1", id=1, RB=280000, RC=380000, EB=120000),
            command("joint", "joint 2", id=2, RB=300000, RC=420000, EB=260000),
            command("no_hinges", "member N1", joint1=1, joint2=2, **N3),
            command("basement", "column K1, basement", place=JOINT, **K1),
            command("wall_base", "wall W1, base", **W1),
            *block("wall W1, block of storeys 1 and 2",
                   command("storey", "wall W1, storey 1", ME=3100000, VE=1020000, J=133333333, J0=133333333, VR=3000000, MS=8500000),
                   command("storey", "wall W1, storey 2", ME=2100000, VE=880000, J=106666667, J0=133333333, VR=2500000, MS=6500000)),
        ),
        building(
            "workshop", 150, 120, 100,
            command("joint", "joint 1", id=1, RB=90000, RC=150000, EB=80000),
            command("column", "column C1", **C3),
            command("no_hinges", "column N2", joint1=1, joint2=1, length=2500, ME1=60000, ME2=45000, V0=0, VR=55000),
            command("soil", "cohesive soil, 80 kPa", kind=COHESIVE, value=80.0, sensitive=0),
            command("footing", "footing F1", **F1),
        ),
    ),
    # Footings on a granular soil, on a cohesive sensitive one, and a light one.
    "footings": [
        SETTINGS,
        command("soil", "granular soil, tangent 0.7", kind=GRANULAR, value=0.7, sensitive=0),
        command("footing", "footing F1", B=2200, L=2200, MR=260000, ME=130000, NV=1000000, NE=0, XV=15000, XE=60000,
                YV=10000, YE=20000, HV=12000, HE=55000, U=0, P=0, flags=0),
        command("footing", "footing F2", B=2000, L=2600, MR=260000, ME=130000, NV=650000, NE=90000, XV=-40000, XE=110000,
                YV=0, YE=25000, HV=15000, HE=60000, U=50000, P=80000, flags=BOTH + CONTACT),
        command("soil", "cohesive soil, 80 kPa, sensitive", kind=COHESIVE, value=80.0, sensitive=1),
        command("footing", "footing F3, beside a trench", B=2400, L=2400, MR=260000, ME=130000, NV=900000, NE=-75000, XV=20000, XE=80000,
                YV=-10000, YE=30000, HV=10000, HE=65000, U=0, P=60000, flags=0),
        command("soil", "cohesive soil, 120.5 kPa", kind=COHESIVE, value=120.5, sensitive=0),
        command("footing", "footing F4, light", B=1800, L=1800, MR=150000, ME=90000, NV=250000, NE=120000, XV=5000, XE=20000,
                YV=0, YE=0, HV=5000, HE=18000, U=0, P=0, flags=0),
    ],
    # Two footings, each first beside a service trench, so that its passive thrust does not count, then with full contact.
    "contact": [
        SETTINGS,
        command("soil", "granular soil, tangent 0.5", kind=GRANULAR, value=0.5, sensitive=0),
        command("footing", "footing F1, beside a trench", **F3, flags=0),
        command("footing", "footing F1, full contact", **F3, flags=CONTACT),
        command("footing", "footing F2, beside a trench", **F4, flags=BOTH),
        command("footing", "footing F2, full contact", **F4, flags=BOTH + CONTACT),
    ],
    # Details of plastic hinges; one lap lies at a wall base.
    "details": [
        SETTINGS,
        command("wall_base", "wall W1, base", length=3600, thickness=250, MR=6000000, ME=3600000, VE=950000, VR=2400000),
        command("detail", "wall W1, base section", place=WALL_BASE, xu=120, xy=260, mu=1000, lap=0),
        command("detail", "wall W1, base section, lapped", place=WALL_BASE, xu=120, xy=260, mu=1000, lap=1),
        command("detail", "column C1, foot", place=COLUMN, xu=131, xy=250, mu=1000, lap=1),
        command("detail", "column C2, foot", place=COLUMN, xu=132, xy=250, mu=1000, lap=0),
        command("detail", "beam B1, end 1", place=BEAM, xu=95, xy=220, mu=1200, lap=0),
    ],
    # Each verdict bit at least once.
    "failures": [
        SETTINGS,
        command("column", "column C1", length=3000, R1plus=200000, R2plus=200000, R1minus=180000, R2minus=210000, VE=80000, VR=186666),
        command("beam", "beam B1, end 2", **B1, V0=-88000, VR=160000),
        command("wall_base", "wall W1, base", length=1000, thickness=250, MR=900000, ME=400000, VE=180000, VR=500000),
        command("storey", "wall W1, storey 1", ME=280000, VE=160000, J=2083333, J0=2083333, VR=450000, MS=800000),
        command("soil", "granular soil, tangent 0.5", kind=GRANULAR, value=0.5, sensitive=0),
        command("footing", "footing F1", B=2000, L=2600, MR=260000, ME=130000, NV=650000, NE=90000, XV=-40000, XE=110000,
                YV=0, YE=25000, HV=15000, HE=90000, U=50000, P=0, flags=0),
        command("footing", "footing F2", B=1500, L=1500, MR=90000, ME=60000, NV=120000, NE=70000, XV=2000, XE=9000,
                YV=0, YE=0, HV=3000, HE=10000, U=0, P=0, flags=0),
        command("detail", "wall W1, base section", place=WALL_BASE, xu=180, xy=300, mu=1000, lap=1),
    ],
    # Each element twice: first with strengths or signs that do not belong to one direction of the action, then rightly.
    "pairing": [
        SETTINGS,
        command("column", "column C1, same face at both ends (wrong)", length=3000,
                R1plus=200000, R2plus=120000, R1minus=120000, R2minus=200000, VE=80000, VR=170000),
        command("column", "column C1, opposite faces (right)", length=3000,
                R1plus=200000, R2plus=200000, R1minus=120000, R2minus=120000, VE=80000, VR=170000),
        command("beam", "beam B1, end 1, both sagging and both hogging (wrong)", length=6000,
                R1plus=150000, R2plus=150000, R1minus=300000, R2minus=300000, V0=60000, VE=70000, VR=140000),
        command("beam", "beam B1, end 1, one hogging and one sagging (right)", length=6000,
                R1plus=300000, R2plus=150000, R1minus=150000, R2minus=300000, V0=60000, VE=70000, VR=140000),
        command("joint", "joint J1, plus", id=1, RB=300000, RC=500000, EB=200000),
        command("joint", "joint J1, minus", id=2, RB=420000, RC=500000, EB=200000),
        command("no_hinges", "member N1, plus (alone it is wrong)", joint1=1, joint2=1, **N1),
        command("no_hinges", "member N1, minus", joint1=2, joint2=2, **N1),
        command("soil", "granular soil, tangent 0.5", kind=GRANULAR, value=0.5, sensitive=0),
        command("footing", "footing F2, NE of the other direction (wrong)", NE=120000, **F2),
        command("footing", "footing F2, NE of the direction of XE (right)", NE=-120000, **F2),
    ],
    # Mistakes that are accepted: each element rightly, then with the mistake.
    "mistakes": [
        SETTINGS,
        command("column", "column C1", **C1),
        command("column", "column C1, kN and kN·m", **times(0.001, C1, STRENGTHS + " VE VR")),
        command("column", "column C1, VE in kN", **times(0.001, C1, "VE")),
        command("column", "column C2", **C2),
        command("column", "column C2, strengths in N·mm", **times(1000, C2, STRENGTHS)),
        command("detail", "detail D1", place=COLUMN, xu=132, xy=250, mu=1000, lap=0),
        command("detail", "detail D1, xu and xy in per cent", place=COLUMN, xu=13, xy=25, mu=1000, lap=0),
        command("soil", "granular soil, 35 degrees as tangent", kind=GRANULAR, value=TANGENT_35, sensitive=0),
        command("footing", "footing F1", **F1),
        command("soil", "granular soil, 35 degrees in radians", kind=GRANULAR, value=RADIANS_35, sensitive=0),
        command("footing", "footing F1, angle in radians", **F1),
        command("soil", "cohesive soil, 80 kPa", kind=COHESIVE, value=80.0, sensitive=0),
        command("footing", "footing F1, cohesive", **F1),
        command("soil", "cohesive soil, 0.08 MPa", kind=COHESIVE, value=0.08, sensitive=0),
        command("footing", "footing F1, strength in MPa", **F1),
        command("soil", "granular soil, tangent 0.5", kind=GRANULAR, value=0.5, sensitive=0),
        command("footing", "footing F1, tangent 0.5", **F1),
        command("soil", "granular soil, tangent 0.5 little-endian", kind=GRANULAR, value=turned(0.5), sensitive=0),
        command("footing", "footing F1, tangent little-endian", **F1),
        command("joint", "joint J1", id=1, RB=300000, RC=500000, EB=200000),
        command("no_hinges", "member N1, between joints like J1", joint1=1, joint2=1, **N1 | dict(VR=100000)),
        command("joint", "joint J2, with the id of J1", id=1, RB=150000, RC=500000, EB=200000),
        command("no_hinges", "member N1, meant between joints like J1", joint1=1, joint2=1, **N1 | dict(VR=100000)),
        command("soil", "granular soil, 35 degrees as tangent, again", kind=GRANULAR, value=TANGENT_35, sensitive=0),
        command("footing", "footing F1, contact not declared", **F1 | dict(flags=0)),
        command("soil", "granular soil, tangent 0.5, again", kind=GRANULAR, value=0.5, sensitive=0),
        command("footing", "footing F2, beside a trench", **F4, flags=BOTH),
        command("footing", "footing F2, beside a trench, contact declared", **F4, flags=BOTH + CONTACT),
        command("wall_base", "wall W1, base", **W1),
        command("basement", "wall W1, first basement", **P1),
        command("wall_base", "wall W2, base", **W1 | dict(MR=6000000, ME=5000000, VE=1000000)),
        command("basement", "wall W1, first basement, after the base of W2", **P1),
    ],
}

# Mistakes that are refused, the last with 4, the others with 5: one job each.
REFUSED = {
    # The id of the joint has two bytes, so each later operand is read a byte too early.
    "id-two-bytes": [SETTINGS, ("joint J1", b"\x02\x00" + command("joint", "", id=1, RB=210000, RC=380000, EB=120000)[1][1:])],
    # The factors of the settings have four bytes each.
    "factors-four-bytes": [("settings", b"\x01" + struct.pack(">III", 350, 140, 120))],
    # The shear as the analysis has it, with its sign.
    "signed-shear": [SETTINGS, ("column C1", command("column", "", **C1 | dict(VE=0))[1][:21] + struct.pack(">iI", -80000, 180000))],
    # J0 rounded down, J rounded up.
    "inertia-rounded": [
        SETTINGS,
        command("wall_base", "wall W1, base", length=4000, thickness=250, MR=8500000, ME=4200000, VE=1100000, VR=3200000),
        command("storey", "wall W1, storey 1", ME=3100000, VE=1020000, J=133333334, J0=133333333, VR=3000000, MS=8500000),
    ],
    # The same in the third set of a block.
    "block-inertia": [
        SETTINGS,
        command("wall_base", "wall W1, base", length=4000, thickness=250, MR=8500000, ME=4200000, VE=1100000, VR=3200000),
        *block("wall W1, block of storeys 1 to 3",
               command("storey", "wall W1, storey 1", ME=3100000, VE=1020000, J=133333333, J0=133333333, VR=3000000, MS=8500000),
               command("storey", "wall W1, storey 2", ME=2100000, VE=880000, J=133333333, J0=133333333, VR=2500000, MS=6500000),
               command("storey", "wall W1, storey 3", ME=1300000, VE=680000, J=133333334, J0=133333333, VR=2000000, MS=4000000)),
    ],
    # The number of a wall as the id of a basement member under it, where 0 is asked.
    "basement-wall-id": [
        SETTINGS,
        command("wall_base", "wall W1, base", **W1),
        command("basement", "wall W1, first basement", **P1 | dict(id=1)),
    ],
    # The friction angle in degrees for its tangent.
    "degrees": [SETTINGS, command("soil", "granular soil, 35 degrees", kind=GRANULAR, value=35.0, sensitive=0)],
    # A second building that is to have the settings of the first, so that its own were left out.
    "building-without-settings": [
        SETTINGS,
        command("joint", "joint J1, first building", id=1, RB=210000, RC=380000, EB=120000),
        command("building", "another building"),
        command("joint", "joint J1, second building", id=1, RB=280000, RC=380000, EB=120000),
        command("no_hinges", "member N1, second building", joint1=1, joint2=1, **N1),
    ],
}

if __name__ == "__main__":
    here = os.path.dirname(os.path.abspath(__file__))
    os.makedirs(os.path.join(here, "refused"), exist_ok=True)
    for name, commands in JOBS.items():
        write(here, name, commands)
    for name, commands in REFUSED.items():
        write(os.path.join(here, "refused"), name, commands)
