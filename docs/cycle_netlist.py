#!/usr/bin/env python3
"""Prints the netlist of crates/cif_cycle_examples/src/netlist.rt, always the same one.

It has each combinational kind once, every other one signed, and `$div` signed too, which has a rule of its own; each kind of
register once; and two memories: the write addresses of `m_open` may be tainted and it has a row at each address, those of
`m_steady` are never tainted and its rows stand at addresses 1 to 3. Words have 3 bits. Where no enable and each reset is active, no
register takes what depends on itself, so after a few cycles nothing changes. The port `freed` shows a cell, a register and a
memory; stimuli release it.
"""
import json

from mixed_netlist import KINDS, REGISTERS, Net

WIDTH, SEED = 3, 5


class CycleNet(Net):
    def held(self, name, kind, data, reset, q):
        parameters = {"WIDTH": WIDTH, "CLK_POLARITY": 1}
        ports = {"CLK": [self.clock], "D": data, "Q": q}
        if kind.endswith("e"):
            parameters["EN_POLARITY"], ports["EN"] = 1, self.enable
        for port, prefix in (("SRST", "$sdff"), ("ARST", "$adff")):
            if kind.startswith(prefix):
                parameters |= {port + "_POLARITY": 1, port + "_VALUE": "101"}
                ports[port] = reset
        self.cell(name, kind, parameters, ports)

    def stored(self, name, size, offset, reads, writes, data, enables, read):
        n = len(reads) // 2, len(writes) // 2
        self.cell(name, "$mem_v2", {
            "WIDTH": WIDTH, "SIZE": size, "OFFSET": offset, "ABITS": 2, "INIT": "011010001110"[: size * WIDTH],
            "RD_PORTS": n[0], "WR_PORTS": n[1], "RD_CLK_ENABLE": "0" * n[0], "RD_WIDE_CONTINUATION": "0" * n[0],
            "WR_CLK_ENABLE": "1" * n[1], "WR_CLK_POLARITY": "1" * n[1], "WR_WIDE_CONTINUATION": "0" * n[1]},
            {"RD_ADDR": reads, "RD_DATA": read, "WR_ADDR": writes, "WR_CLK": [self.clock] * n[1], "WR_DATA": data,
             "WR_EN": enables})


def made():
    net = CycleNet(SEED, WIDTH)
    net.clock = net.bits(1)[0]
    net.port("clk", "input", [net.clock])
    control, place = net.bits(4), net.bits(6)
    net.enable, reset, reset_now, write = ([bit] for bit in control)
    net.port("control", "input", control)
    net.port("place", "input", place)
    for i in range(4):
        net.words.append(net.bits(WIDTH))
        net.port(f"in{i}", "input", net.words[-1])
    q = {kind: net.bits(WIDTH) for kind in REGISTERS}
    net.words += [q[kind] for kind in REGISTERS[:5]]
    read, steady = net.bits(WIDTH), net.bits(2 * WIDTH)
    addresses = {}
    for i, kind in enumerate(KINDS + ["$div"]):
        is_signed = i % 2 == 1
        name = ("s_" if is_signed else "u_") + kind[1:]
        net.combinational(name, kind)
        for sign in ("A_SIGNED", "B_SIGNED"):
            if sign in net.cells[name]["parameters"]:
                net.cells[name]["parameters"][sign] = int(is_signed and (kind, sign) != ("$shiftx", "A_SIGNED"))
        # what passes a bit on in the same cycle takes it from cells before, and cells after it may read what it shows
        if i == 8:
            net.words.append(q["$adff"])
        if i == 15:
            reset_by_cell = net.word(4)[:1]
            net.words.append(q["$adffe"])
        if i == 22:
            addresses["open"] = net.word(8)[:2]
            net.words.append(read)
        if i == 29:
            addresses["steady"] = net.word(8)[:2]
            net.words += [steady[:WIDTH], steady[WIDTH:]]
    net.held("r_dff", "$dff", q["$sdff"][:2] + q["$adff"][:1], None, q["$dff"])
    for kind in REGISTERS[1:]:
        by = reset_by_cell if kind == "$adffe" else reset_now if kind == "$adff" else reset
        net.held("r_" + kind[1:], kind, net.word(30), by, q[kind])
    net.stored("m_open", 4, 0, addresses["open"], net.words[0][:1] + q["$dffe"][:1], net.word(30), write * WIDTH, read)
    net.stored("m_steady", 3, 1, place[4:] + addresses["steady"], place[:4], net.word(30) + net.word(30),
               write * 4 + net.enable * 2, steady)
    net.cell("scope", "$scopeinfo", {}, {})
    net.port("freed", "output", net.cells["u_not"]["connections"]["Y"] + q["$sdffe"] + read)
    return {"modules": {"m": {"ports": net.ports, "cells": net.cells}}}


def main():
    print("// A netlist of every kind of cell, as docs/cycle_netlist.py prints it.")
    print()
    print("/// Each combinational kind, each kind of register, and two memories.")
    print('pub const NETLIST: &str = r#"{"modules":{"m":{"ports":{')
    module = made()["modules"]["m"]
    for part, end in (("ports", '},"cells":{'), ("cells", '}}}}"#;')):
        lines = []
        for name, thing in sorted(module[part].items()):
            kept = {k: v for k, v in thing.items() if v and k not in ("hide_name",)}
            if part == "cells":
                kept.setdefault("connections", {})
            lines.append(json.dumps(name) + ":" + json.dumps(kept, separators=(",", ":")))
        print(",\n".join(lines) + end)


if __name__ == "__main__":
    main()
