#!/usr/bin/env python3
"""Prints measure/long.txt: sheets whose answers are easy to see, and which neither engine answers in five seconds.

The first is given as bytes. The others are written here by hand, in words: wildcards and classes are names, rules go between
classes, ports are numbered in the order in which they are named. `python3 measure/long.py >measure/long.txt`.
"""

HEAD = """\
# Sheets that do not end: LABEL HEX sat|unsat, or LABEL HEX causes PORT CLASS SET.. (rule n of a set is worth 2^n).
# Printed by measure/long.py, where they stand in words. Neither second/ nor ask answers one of them in five seconds, and second/ none in a minute: one
# joint label after the other is tried, and what is wrong, or what would be right, is seen only once all ports have split on all rules.
# What is known of an answer stands behind the bytes: it is seen by hand, as the lines above each sheet say, and FaCT++ 1.6.5 agrees, in two hundredths of
# a second each (`to_fact HEX FOLDER` writes its input; for causes it was asked about every set of rules). They stand here for the landing that will end them.
"""

KINDS = {"not": 3, "and": 4, "or": 5, "some": 6, "only": 7}


class Sheet:
    def __init__(self):
        self.lines, self.rules, self.ports, self.classes, self.edges = [], [], [], [], []
        self.names, self.roles = {}, {}

    def line(self, said):
        """The line that says it: a name, or a tuple such as ("some", "drives", "test-side")."""
        if said in ("top", "bottom"):
            numbers = (0,) if said == "top" else (1,)
        elif isinstance(said, str):
            numbers = (2, self.names.setdefault(said, len(self.names)))
        elif said[0] in ("some", "only"):
            numbers = (KINDS[said[0]], self.roles.setdefault(said[1], len(self.roles)), self.line(said[2]))
        else:
            numbers = (KINDS[said[0]], *[self.line(part) for part in said[1:]])
        if numbers not in self.lines:
            self.lines.append(numbers)
        return self.lines.index(numbers)

    def rule(self, c, d):
        self.rules.append((self.line(c), self.line(d)))
        return self

    def port(self, *names):
        self.ports.extend(names)
        return self

    def says(self, port, said):
        self.classes.append((self.ports.index(port), self.line(said)))
        return self

    def edge(self, role, a, b):
        self.edges.append((self.roles.setdefault(role, len(self.roles)), self.ports.index(a), self.ports.index(b)))
        return self

    def hex(self):
        numbers = [len(self.lines)] + [n for line in self.lines for n in line]
        numbers += [len(self.rules)] + [n for rule in self.rules for n in rule]
        numbers += [len(self.ports), len(self.classes)] + [n for entry in self.classes for n in entry]
        numbers += [len(self.edges)] + [n for entry in self.edges for n in entry]
        assert len(self.lines) <= 32 and len(self.rules) <= 12 and len(self.ports) <= 8 and len(self.roles) <= 8
        return bytes(numbers).hex()


def put(label, words, sheet, answer):
    print()
    for line in words.strip().splitlines():
        print("#", line.strip())
    print(label, sheet if isinstance(sheet, str) else sheet.hex(), answer)


def exemptions():
    """A dozen rules as they gather over the years."""
    s = Sheet()
    s.rule("dbg_*", "test-side").rule("scan_*", "test-side").rule("jtag_*", "test-side").rule("test-side", "exempt")
    s.rule("clk_*", "clock").rule("pll_*", "clock").rule("clock", ("not", "exempt")).rule("rst_*", "asynchronous")
    s.rule("asynchronous", "exempt").rule("mem_*", "timed").rule("io_*", "timed").rule("timed", ("not", "exempt"))
    return s


print(HEAD, end="")

put("twelve-names", """
    Twelve names, for each of which a rule says that what is in it is in it; eight ports, the last of which has a neighbour in bottom.
    Unsatisfiable: nothing is in bottom. Every port splits on every rule first: 2^96 joint labels.""",
    "0e0200020102020203020402050206020702080209020a020b0106000c0c00000101020203030404050506060707080809090a0a0b0b0801070d00", "unsat")

s = exemptions().port("u0", "u1", "u2", "u3", "u4", "u5", "u6", "tap")
s.says("tap", ("only", "feeds", "dbg_*")).edge("feeds", "tap", "u0")
put("tap-feeds-debug", """
    A dozen rules between wildcards and classes, eight ports. The tap feeds debug ports only, and feeds u0.
    Satisfiable: u0 matches dbg_*, is test-side and exempt, all others match nothing. That u0 does not match dbg_* is tried first, and given up
    last, behind everything that the other seven ports might be.""", s, "sat")

s = exemptions().port("u0", "u1", "u2", "u3", "u4", "pad")
s.says("pad", ("some", "feeds", ("and", "mem_*", "exempt")))
put("exempt-memory", """
    The same rules, six ports. The pad feeds a memory port that is exempt.
    Unsatisfiable: mem_* is timed, and what is timed is not exempt. It is a neighbour that cannot be, so that each joint label fails by itself.""", s, "unsat")

s = exemptions().port("u0", "u1", "u2", "u3", "u4", "u5", "div")
s.says("div", ("some", "clocks", "pll_*")).says("div", ("only", "clocks", "asynchronous"))
put("two-clocks", """
    The same rules, seven ports. The divider clocks a pll_* port, and clocks what is asynchronous only.
    Unsatisfiable: a pll_* port is a clock, and so not exempt; what is asynchronous is exempt.""", s, "unsat")

def chain(n):
    s = Sheet().rule("dbg_*", "test-side").rule("scan_*", "test-side").rule("jtag_*", "test-side").rule("test-side", "exempt")
    s.rule(("some", "drives", "test-side"), "test-side").rule("rst_*", "asynchronous").rule("asynchronous", "exempt").rule("clk_*", "clock")
    s.rule("pll_*", "clock").rule("mem_*", "timed").rule("io_*", "timed").rule("lvds_*", "io_*")
    ports = ["p%d" % i for i in range(n)]
    s.port(*ports)
    for a, b in zip(ports, ports[1:]):
        s.edge("drives", a, b)
    return s, ports

s, ports = chain(6)
s.says(ports[-1], "dbg_*")
put("drives-a-debug-port", """
    What drives something test-side is test-side; six ports, each driving the next, the last matches dbg_*.
    Satisfiable: all six are test-side and exempt, the Friday port five times over. That p0 is not test-side is tried first.""", s, "sat")

s, ports = chain(6)
s.says(ports[-1], "dbg_*").says(ports[0], ("not", "exempt"))
put("drives-a-debug-port-timed", """
    The same six ports, and p0 must not be exempt.
    Unsatisfiable: it is test-side by the chain, and so exempt.""", s, "unsat")

s, ports = chain(8)
s.says(ports[7], "dbg_*")
put("why-is-it-exempt", """
    The same with eight ports: why is p6, which drives the debug port, exempt?
    By rules 0, 3 and 4 together: dbg_* is test-side, what is test-side is exempt, what drives something test-side is test-side.""",
    s, "causes 6 %d 25" % s.line("exempt"))

domains = ["cpu", "ddr", "pcie", "usb", "eth", "gpu", "dsp", "sram", "rom", "gpio", "uart"]
s = Sheet()
for domain in domains:
    s.rule(domain + "_*", domain)
s.rule("cpu", ("not", "ddr")).port("u0", "u1", "bridge").says("bridge", ("some", "drives", ("and", "cpu_*", "ddr_*")))
put("bridge-of-two-domains", """
    Eleven wildcards, each for a clock domain of its own; what is in the one called cpu is not in the one called ddr. Three ports, and the last drives
    something that matches cpu_* and ddr_*. Unsatisfiable: it would be in both domains. 2^12 labels at each port.""", s, "unsat")

s = Sheet().rule("top", ("or", "driver", "receiver")).rule("driver", ("some", "drives", "receiver")).rule("receiver", ("some", "clocked-by", "clock"))
s.rule("clk_*", "clock").rule("pll_*", "clock").rule("clock", ("not", "receiver")).rule("dbg_*", "test-side").rule("scan_*", "test-side")
s.rule("test-side", "exempt").rule("mem_*", "timed").rule("timed", ("not", "exempt")).rule("io_*", "timed")
s.port("a", "b", "c", "d", "e", "f").says("f", ("only", "drives", "clk_*")).says("f", ("not", "receiver"))
put("driver-or-receiver", """
    Everything drives or receives; a driver drives some receiver, a receiver is clocked by a clock, a clock receives nothing. Six ports.
    The last is no receiver, and drives clk_* ports only. Unsatisfiable: it is a driver, and drives a receiver, which is a clock, which receives nothing.""", s, "unsat")

s = exemptions().port("u0", "u1", "u2", "u3", "u4", "u5", "u6")
s.says("u6", ("only", "feeds", ("some", "clocks", "mem_*"))).says("u6", ("some", "feeds", ("only", "clocks", "exempt")))
put("feeds-what-clocks-memory", """
    The first dozen rules, seven ports. The last feeds only what clocks some memory port, and feeds something that clocks exempt ports only.
    Unsatisfiable: that would clock a memory port that is exempt, and mem_* is timed.""", s, "unsat")

s = exemptions().port("u0", "u1", "u2", "u3", "u4", "u5", "u6")
s.says("u6", ("only", "feeds", ("not", "exempt"))).edge("feeds", "u6", "u0").says("u0", ("or", "dbg_*", "io_*"))
put("debug-or-io", """
    The first dozen rules, seven ports. The last feeds only what is not exempt, and feeds u0, which matches dbg_* or io_*.
    Satisfiable: u0 matches io_*, is timed and not exempt. That it matches dbg_* is tried first.""", s, "sat")
