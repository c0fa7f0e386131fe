#!/usr/bin/env python3
"""Prints the texts of this repository that are too regular to be written by hand.

    tables.py kinds            the arms of the table of kinds in Rust: crates/*/src/table.rt
    tables.py rows NAME N      the rows of a truth table of N bits: crates/rule_logic/proofs/BitRules.antt
    tables.py check FILE..     says of each such part whether it stands in the files as it is printed

A new kind is a line of KINDS; paste what `kinds` prints over the bodies of the functions of the same names, and run
`rt fmt`. The checks compare all of it with `crates/cif_defs/specs/Table.antt`, which is written by hand.
"""
import itertools
import sys

# as `rt fmt` lays out: a line, and a list that stays on one
LINE_WIDTH = 100
LIST_WIDTH = 60

PARAMS = {
    "ASigned": "A_SIGNED", "BSigned": "B_SIGNED", "AWidth": "A_WIDTH", "BWidth": "B_WIDTH", "YWidth": "Y_WIDTH",
    "Width": "WIDTH", "SWidth": "S_WIDTH", "Offset": "OFFSET", "Lut": "LUT", "ClkPolarity": "CLK_POLARITY",
    "EnPolarity": "EN_POLARITY", "SrstPolarity": "SRST_POLARITY", "SrstValue": "SRST_VALUE",
    "ArstPolarity": "ARST_POLARITY", "ArstValue": "ARST_VALUE", "Size": "SIZE", "Abits": "ABITS", "Init": "INIT",
    "RdPorts": "RD_PORTS", "WrPorts": "WR_PORTS", "RdClkEnable": "RD_CLK_ENABLE",
    "RdWideContinuation": "RD_WIDE_CONTINUATION", "WrClkEnable": "WR_CLK_ENABLE", "WrClkPolarity": "WR_CLK_POLARITY",
    "WrWideContinuation": "WR_WIDE_CONTINUATION",
}

PORTS = {
    "A": "A", "B": "B", "C": "C", "S": "S", "Ci": "CI", "Bi": "BI", "D": "D", "En": "EN", "Srst": "SRST",
    "Arst": "ARST", "X": "X", "Y": "Y", "Co": "CO", "Q": "Q", "Clk": "CLK", "RdAddr": "RD_ADDR", "WrEn": "WR_EN",
    "WrAddr": "WR_ADDR", "WrData": "WR_DATA", "RdData": "RD_DATA", "WrClk": "WR_CLK",
}

# A shape: parameters, operands, outputs, clocks. A port is NAME:WIDTH, where WIDTH is 1, a parameter, P+Q, P*Q or P<<Q.
UNARY = ("ASigned AWidth YWidth", "A:AWidth", "Y:YWidth", "")
BINARY = ("ASigned BSigned AWidth BWidth YWidth", "A:AWidth B:BWidth", "Y:YWidth", "")


def register(parameters, controls):
    return (f"Width ClkPolarity {parameters}", f"D:Width {controls}", "Q:Width", "Clk:1")


# variant, text of the type, role, shape
KINDS = (
    [(k, "$" + k.lower(), "Combinational", UNARY) for k in "Not Pos Neg".split()]
    + [(k, "$" + k.lower(), "Combinational", BINARY)
       for k in "And Or Xor Xnor Add Sub Mul Div Mod DivFloor ModFloor Eq Ne Eqx Nex Lt Le Ge Gt".split()]
    + [("Reduce" + k, "$reduce_" + k.lower(), "Combinational", UNARY) for k in "And Or Xor Xnor Bool".split()]
    + [("LogicNot", "$logic_not", "Combinational", UNARY)]
    + [("Logic" + k, "$logic_" + k.lower(), "Combinational", BINARY) for k in "And Or".split()]
    + [(k, "$" + k.lower(), "Combinational", BINARY) for k in "Shl Sshl Shr Sshr Shift Shiftx".split()]
    + [
        ("Mux", "$mux", "Combinational", ("Width", "A:Width B:Width S:1", "Y:Width", "")),
        ("Pmux", "$pmux", "Combinational", ("Width SWidth", "A:Width B:Width*SWidth S:SWidth", "Y:Width", "")),
        ("Bmux", "$bmux", "Combinational", ("Width SWidth", "A:Width<<SWidth S:SWidth", "Y:Width", "")),
        ("Demux", "$demux", "Combinational", ("Width SWidth", "A:Width S:SWidth", "Y:Width<<SWidth", "")),
        ("Concat", "$concat", "Combinational", ("AWidth BWidth", "A:AWidth B:BWidth", "Y:AWidth+BWidth", "")),
        ("Slice", "$slice", "Combinational", ("Offset AWidth YWidth", "A:AWidth", "Y:YWidth", "")),
        ("Lut", "$lut", "Combinational", ("Width Lut", "A:Width", "Y:1", "")),
        ("Fa", "$fa", "Combinational", ("Width", "A:Width B:Width C:Width", "X:Width Y:Width", "")),
        ("Alu", "$alu", "Combinational", (BINARY[0], "A:AWidth B:BWidth Ci:1 Bi:1", "X:YWidth Y:YWidth Co:YWidth", "")),
        ("ScopeInfo", "$scopeinfo", "CarriedOver", ("", "", "", "")),
        ("Dff", "$dff", "PlainRegister", register("", "")),
        ("Dffe", "$dffe", "PlainRegister", register("EnPolarity", "En:1")),
        ("Sdff", "$sdff", "PlainRegister", register("SrstPolarity SrstValue", "Srst:1")),
        ("Sdffe", "$sdffe", "PlainRegister", register("EnPolarity SrstPolarity SrstValue", "En:1 Srst:1")),
        ("Sdffce", "$sdffce", "PlainRegister", register("EnPolarity SrstPolarity SrstValue", "En:1 Srst:1")),
        ("Adff", "$adff", "ResetRegister", register("ArstPolarity ArstValue", "Arst:1")),
        ("Adffe", "$adffe", "ResetRegister", register("EnPolarity ArstPolarity ArstValue", "En:1 Arst:1")),
        ("Mem", "$mem_v2", "MemoryBlock", (
            "Width Size Offset Abits Init RdPorts WrPorts RdClkEnable RdWideContinuation WrClkEnable WrClkPolarity "
            "WrWideContinuation",
            "RdAddr:RdPorts*Abits WrEn:WrPorts*Width WrAddr:WrPorts*Abits WrData:WrPorts*Width",
            "RdData:RdPorts*Width", "WrClk:WrPorts")),
    ]
)


def width(text):
    for mark, form in (("+", "Sum"), ("*", "Product"), ("<<", "Blocks")):
        if mark in text:
            first, second = text.split(mark)
            return f"PortWidth::{form}(Param::{first}, Param::{second})"
    return "PortWidth::One" if text == "1" else f"PortWidth::Of(Param::{text})"


def row(text, indent):
    port, bits = text.split(":")
    pad = " " * indent
    return f"PortRow {{\n{pad}    port: CellPort::{port},\n{pad}    width: {width(bits)},\n{pad}}}"


def role_body(role):
    return f"Role::{role}"


def params_body(text):
    items = [f"Param::{p}" for p in text.split()]
    flat = ", ".join(items)
    if len(flat) <= LIST_WIDTH:
        return f"&[{flat}]"
    return "&[\n" + "".join(f"            {i},\n" for i in items) + "        ]"


def ports_body(text):
    items = text.split()
    if len(items) < 2:
        return "&[" + "".join(row(i, 8) for i in items) + "]"
    return "&[\n" + "".join(f"            {row(i, 12)},\n" for i in items) + "        ]"


def arms(value, body):
    """Arms of a match: kinds of one value share one, at the place of the first of them."""
    groups = {}
    for kind in KINDS:
        groups.setdefault(value(kind), []).append(f"Kind::{kind[0]}")
    out = ""
    for shared, names in groups.items():
        tail = f" => {body(shared)},"
        head = " | ".join(names)
        if len(f"        {head}{tail}".split("\n")[0]) >= LINE_WIDTH:
            head = "\n        | ".join(names)
        out += f"        {head}{tail}\n"
    return out


def parts():
    return {
        "ALL_KINDS": "".join(f"    Kind::{k[0]},\n" for k in KINDS),
        "type_name": "".join(f'        Kind::{k[0]} => "{k[1]}",\n' for k in KINDS),
        "param_name": "".join(f'        Param::{p} => "{t}",\n' for p, t in PARAMS.items()),
        "port_name": "".join(f'        CellPort::{p} => "{t}",\n' for p, t in PORTS.items()),
        "role": arms(lambda k: k[2], role_body),
        "parameters": arms(lambda k: " ".join(k[3][0].split()), params_body),
        "operands": arms(lambda k: " ".join(k[3][1].split()), ports_body),
        "outputs": arms(lambda k: k[3][2], ports_body),
        "clocks": arms(lambda k: k[3][3], ports_body),
    }


def rows(name, count):
    return "".join(f"{name} {' '.join(bits)} = refl\n" for bits in itertools.product(("true", "false"), repeat=count))


TABLES = {"same_table": 2, "not_table": 2, "and_table": 4, "or_table": 4, "xor_table": 4, "xnor_table": 4, "sum_table": 6}


def check(files):
    text = "".join(open(f, encoding="utf-8").read() for f in files)
    wanted = {**parts(), **{name: rows(name, count) for name, count in TABLES.items()}}
    missing = [name for name, part in wanted.items() if part not in text]
    for name in wanted:
        print(f"{name}: {'differs' if name in missing else 'the same'}")
    return 1 if missing else 0


def main(words):
    if words == ["kinds"]:
        for name, part in parts().items():
            print(f"// {name}\n{part}")
    elif len(words) == 3 and words[0] == "rows":
        print(rows(words[1], int(words[2])), end="")
    elif len(words) > 1 and words[0] == "check":
        return check(words[1:])
    else:
        print(__doc__)
        return 1
    return 0


if __name__ == "__main__":
    sys.exit(main(sys.argv[1:]))
