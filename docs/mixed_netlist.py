#!/usr/bin/env python3
"""Writes a netlist of mixed cells and a stimulus, always the same ones for the same words. For figures of time and memory.

    mixed_netlist.py NAME CELLS WIDTH REGISTERS MEMORY CYCLES [SEED]

writes NAME.json and NAME.stim: CELLS combinational cells, one after another of each kind in KINDS, of WIDTH bits, whose
operands are words of cells before them, of inputs and of registers; REGISTERS registers of that width, of each kind in turn,
which take words of the last cells; where MEMORY is not 0, a memory of that many words with one read port and one write
port; one output port of one word. The stimulus has CYCLES cycles, sets every input in each of them to a word drawn
anew, and taints every tenth bit of them or so. Draws are a linear congruence of our own, so they are the same everywhere.
"""
import json
import sys

KINDS = (
    "$not $pos $neg $and $or $xor $xnor $add $sub $mul $div $mod $divfloor $modfloor $eq $ne $eqx $nex $lt $le $ge $gt "
    "$reduce_and $reduce_or $reduce_xor $reduce_xnor $reduce_bool $logic_not $logic_and $logic_or $shl $sshl $shr $sshr "
    "$shift $shiftx $mux $pmux $bmux $demux $concat $slice $lut $fa $alu"
).split()
UNARY = "$not $pos $neg $reduce_and $reduce_or $reduce_xor $reduce_xnor $reduce_bool $logic_not".split()
ONE_BIT = "$eq $ne $eqx $nex $lt $le $ge $gt $logic_and $logic_or".split() + UNARY[3:]
REGISTERS = "$dff $dffe $sdff $sdffe $sdffce $adff $adffe".split()
INPUTS = 8


class Draw:
    """Numbers from 0 below 2^32: the high half of x * 6364136223846793005 + 1442695040888963407 modulo 2^64."""

    def __init__(self, seed):
        self.x = seed

    def below(self, n):
        self.x = (self.x * 6364136223846793005 + 1442695040888963407) % 2**64
        return (self.x >> 32) % n


class Net:
    def __init__(self, seed, width):
        self.draw, self.width, self.next, self.cells, self.ports = Draw(seed), width, 2, {}, {}
        self.words = []

    def bits(self, n):
        self.next += n
        return list(range(self.next - n, self.next))

    def word(self, recent=0):
        """A word of WIDTH bits that something drives already."""
        some = self.words[-recent:] if recent else self.words
        return some[self.draw.below(len(some))]

    def port(self, name, direction, bits):
        self.ports[name] = {"direction": direction, "bits": bits}

    def cell(self, name, kind, parameters, connections):
        self.cells[name] = {"hide_name": 0, "type": kind, "parameters": parameters, "attributes": {}, "connections": connections}

    def give(self, bits):
        """Takes a result up as a word, filled with bits of another where it is narrower."""
        self.words.append((bits + self.word()[len(bits):])[: self.width])

    def combinational(self, name, kind):
        w, a, b = self.width, self.word(), self.word()
        sign = 0 if kind == "$shiftx" else self.draw.below(2)
        signed = {"A_SIGNED": sign, "B_SIGNED": sign}
        y = self.bits(1 if kind in ONE_BIT else w)
        widths = {"A_WIDTH": w, "B_WIDTH": w, "Y_WIDTH": len(y)}
        if kind in UNARY:
            self.cell(name, kind, {"A_SIGNED": sign, "A_WIDTH": w, "Y_WIDTH": len(y)}, {"A": a, "Y": y})
        elif kind == "$mux":
            self.cell(name, kind, {"WIDTH": w}, {"A": a, "B": b, "S": self.word()[:1], "Y": y})
        elif kind == "$pmux":
            self.cell(name, kind, {"WIDTH": w, "S_WIDTH": 2}, {"A": a, "B": b + self.word(), "S": self.word()[:1] + self.word()[:1], "Y": y})
        elif kind == "$bmux":
            self.cell(name, kind, {"WIDTH": w, "S_WIDTH": 1}, {"A": a + b, "S": self.word()[:1], "Y": y})
        elif kind == "$demux":
            y = self.bits(w)
            self.cell(name, kind, {"WIDTH": w, "S_WIDTH": 1}, {"A": a, "S": self.word()[:1], "Y": self.bits(w) + y})
        elif kind == "$concat":
            self.cell(name, kind, {"A_WIDTH": w, "B_WIDTH": w}, {"A": a, "B": b, "Y": self.bits(w) + y})
        elif kind == "$slice":
            y = y[: w - w // 2]
            self.cell(name, kind, {"OFFSET": w // 2, "A_WIDTH": w, "Y_WIDTH": len(y)}, {"A": a, "Y": y})
        elif kind == "$lut":
            y, table = y[:1], "".join(str(self.draw.below(2)) for _ in range(2 ** min(w, 4)))
            self.cell(name, kind, {"WIDTH": min(w, 4), "LUT": table}, {"A": a[:4], "Y": y})
        elif kind == "$fa":
            self.cell(name, kind, {"WIDTH": w}, {"A": a, "B": b, "C": self.word(), "X": self.bits(w), "Y": y})
        elif kind == "$alu":
            ports = {"A": a, "B": b, "CI": self.word()[:1], "BI": self.word()[:1], "X": self.bits(w), "Y": y, "CO": self.bits(w)}
            self.cell(name, kind, {**signed, **widths}, ports)
        else:
            if kind in ("$shl", "$sshl", "$shr", "$sshr", "$shift", "$shiftx"):
                b, widths["B_WIDTH"] = b[:3], len(b[:3])
                signed["B_SIGNED"] = 0
            self.cell(name, kind, {**signed, **widths}, {"A": a, "B": b, "Y": y})
        self.give(y)

    def register(self, name, kind, q):
        parameters, ports = {"WIDTH": self.width, "CLK_POLARITY": 1}, {"CLK": [self.clock], "D": self.word(64), "Q": q}
        held = {"EN": kind.endswith("e"), "SRST": kind.startswith("$sdff"), "ARST": kind.startswith("$adff")}
        for port, is_held in held.items():
            if is_held:
                parameters[port + "_POLARITY"] = 1
                ports[port] = [self.controls[len(ports) % 4]]
                if port != "EN":
                    parameters[port + "_VALUE"] = "0" * self.width
        self.cell(name, kind, parameters, ports)

    def memory(self, name, size, read):
        # addresses come from inputs and registers alone, so that no loop goes through the memory
        sources = [bit for word in self.words[: INPUTS + self.stored] for bit in word]
        address = lambda: [sources[self.draw.below(len(sources))] for _ in range(max(1, (size - 1).bit_length()))]
        ports = {"RD_ADDR": address(), "RD_DATA": read, "RD_CLK": ["x"], "RD_EN": ["1"], "RD_ARST": ["0"], "RD_SRST": ["0"],
                 "WR_ADDR": address(), "WR_DATA": self.word(64), "WR_EN": [self.controls[0]] * self.width, "WR_CLK": [self.clock]}
        self.cell(name, "$mem_v2", {
            "WIDTH": self.width, "SIZE": size, "OFFSET": 0, "ABITS": len(ports["RD_ADDR"]), "INIT": "x", "RD_PORTS": 1,
            "WR_PORTS": 1, "RD_CLK_ENABLE": "0", "RD_WIDE_CONTINUATION": "0", "WR_CLK_ENABLE": "1", "WR_CLK_POLARITY": "1",
            "WR_WIDE_CONTINUATION": "0"}, ports)


def made(cells, width, registers, memory, seed):
    net = Net(seed, width)
    net.clock = net.bits(1)[0]
    net.port("clk", "input", [net.clock])
    net.controls = net.bits(4)
    net.port("control", "input", net.controls)
    for i in range(INPUTS):
        net.words.append(net.bits(width))
        net.port(f"in{i}", "input", net.words[-1])
    stored = [net.bits(width) for _ in range(registers)]
    read = net.bits(width) if memory else None
    net.stored = registers
    net.words += stored + ([read] if memory else [])
    for i in range(cells):
        net.combinational(f"c{i:06}", KINDS[i % len(KINDS)])
    for i, q in enumerate(stored):
        net.register(f"r{i:06}", REGISTERS[i % len(REGISTERS)], q)
    if memory:
        net.memory("table", memory, read)
    net.port("out", "output", net.words[-1])
    return {"creator": "mixed_netlist.py", "modules": {"mixed": {"attributes": {}, "ports": net.ports, "cells": net.cells, "netnames": {}}}}


def stimulus(width, cycles, seed):
    draw, lines = Draw(seed + 1), ["cellift-stimulus 1", f"cycles {cycles}"]
    word = lambda n: "".join(str(draw.below(2)) for _ in range(n))
    taint = lambda n: "".join("1" if draw.below(10) == 0 else "0" for _ in range(n))
    for k in range(cycles):
        lines.append(f"@ {k}")
        lines.append(f"set control {word(4)} {taint(4)}")
        lines += [f"set in{i} {word(width)} {taint(width)}" for i in range(INPUTS)]
    return "\n".join(lines) + "\n"


def main(words):
    if len(words) not in (6, 7):
        print(__doc__)
        return 1
    name, (cells, width, registers, memory, cycles, seed) = words[0], map(int, (words[1:] + ["7"])[:6])
    with open(name + ".json", "w", encoding="utf-8") as file:
        json.dump(made(cells, width, registers, memory, seed), file, indent=0)
    with open(name + ".stim", "w", encoding="utf-8") as file:
        file.write(stimulus(width, cycles, seed))
    return 0


if __name__ == "__main__":
    sys.exit(main(sys.argv[1:]))
