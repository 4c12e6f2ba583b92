"""The texts of .ci/hostile: at each limit, and the largest and slowest work within the limits."""
from typing import Callable, NamedTuple, Optional


# ---- at the limits ---------------------------------------------------------------------------------------------------------

LAST = 2**63 - 1
SYNTAX = "F3 Syntax line {} path -"


def lines(*parts):
    """The text of these lines; a part may be a list of lines."""
    flat = []
    for part in parts:
        flat += [part] if isinstance(part, str) else part
    return "".join(line + "\n" for line in flat)


def one(statements, heads=("input a 1",), output="output y 1", bench=()):
    """A text of one circuit without parameters, whose first statement stands on line 4 where there is one head."""
    return lines("circuit t", list(heads), output, statements, "top t", ["bench", *bench, "end"] if bench else [])


def nested(opening, depth, inner):
    return opening * depth + inner + ")" * depth


def padded(size):
    text = one(["assign y a"])
    return text + " " * (size - len(text))


def counted(n):
    """A body with a count of n: a `for` line, its turns and lines, and lines after it."""
    turns, rest = (n - 2) // 2 - 1, n % 2 + 2
    return one([f"for i 0 {turns}", "let x[i] a", "end", *[f"let z[{k}] a" for k in range(rest)], "assign y a"])


def heavy(weight, name="t"):
    """The lines of a circuit of that weight: sums of sums, and lines that add one."""
    turns, rest = divmod(weight - 5, 11)
    fill = [f"let z[{k}] a" for k in range(rest)]
    return [f"circuit {name}", "input a 1", "output y 1", f"for i 0 {turns}", "let x[i] add(add(a,a),add(a,a))", "end", *fill, "assign y x[0]"]


def heavy_tree(weight):
    """16 instances of a circuit of weight 262,137, and in the top what is left."""
    fill = [f"let z[{k}] a" for k in range(weight - 5 - 16 * (6 + 262_137))]
    top = ["circuit t", "input a 1", "output y 1", "for i 0 16", "inst u[i] c : a=a", "end", *fill, "assign y u[0].y"]
    return lines(heavy(262_137, "c"), top, "top t")


def instances(n):
    """A tree of n instances: a top, 255 middle ones of 256 leaves but for the last one, and leaves."""
    last = n - 1 - 254 * 257 - 1
    leaf = ["circuit leaf", "output y 1", "assign y 1'h0"]
    middle = ["circuit mid k", "output y 1", "for i 0 k", "inst u[i] leaf :", "end", "assign y u[0].y"]
    top = ["circuit t", "output y 1", "for i 0 254", "inst u[i] mid 256 :", "end", f"inst u[254] mid {min(last, 256)} :"]
    return lines(leaf, middle, top, ["inst z leaf :"] * max(0, last - 256), "assign y u[0].y", "top t")


def deep(n):
    return lines("circuit d n", "output y 1", "if n>1", "inst u d (n-1) :", "assign y u.y", "else", "assign y 1'h1", "end", f"top d {n}")


def endless(names):
    """Calls of themselves that nothing ends."""
    return lines("circuit d", "output y 1", [f"inst {it} d :" for it in names], "assign y u.y", "top d")


def own_words(n):
    """A body with n words of memory, in 64 memories or one more."""
    rest = n - 63 * 65_536
    sizes = [rest] if rest <= 65_536 else [65_536, rest - 65_536]
    return one(["for i 0 63", "memory m[i] 65536 1", "end", *[f"memory z[{k}] {it} 1" for k, it in enumerate(sizes)], "assign y a"])


def words_of_calls(n):
    """63 instances with 65,536 words each, and the rest in the top."""
    rest = n - 63 * 65_536
    sizes = [rest] if rest <= 65_536 else [65_536, rest - 65_536]
    top = ["circuit t", "output y 1", *[f"memory m[{k}] {it} 1" for k, it in enumerate(sizes)], "for i 0 63", "inst u[i] c :", "end"]
    return lines("circuit c", "output y 1", "memory m 65536 1", "assign y read(m,1'h0)", top, "assign y u[0].y", "top t")


def ports(kind):
    def make(n):
        driven = [f"assign p{k} 128'h1" for k in range(n)] if kind == "output" else ["output y 1", "assign y 1'h1"]
        return lines("circuit t", [f"{kind} p{k} 128" for k in range(n)], driven, "top t")

    return make


def number(text):
    """A text that needs the number, for the ends of a loop without turns."""
    return lines("circuit t", "output y 1", f"for i ({text}) ({text})", "end", "assign y 1'h1", "top t")


def wide(statement, output="output y 128"):
    """A statement on line 7, over inputs of 64, 65, 128 and 1 bits."""
    return one([statement], ["input a 64", "input b 65", "input c 128", "input d 1"], output)


def named(what):
    """A text whose circuit, port, label or `let` has a name of n bytes."""

    def make(n):
        name = "n" * n
        if what == "circuit":
            return lines(f"circuit {name}", "output y 1", "assign y 1'h1", f"top {name}")
        if what == "port":
            return lines("circuit t", f"output {name} 1", f"assign {name} 1'h1", "top t")
        return one(["let x not(a)", f"label x {name}", "assign y x"]) if what == "label" else one([f"let {name} a", f"assign y {name}"])

    return make


def statement(form):
    """One statement with a part put in, and the output."""
    return lambda part: one([form.format(part), "assign y a"])


def cases(width_and_count):
    width, count = width_and_count
    return one([f"assign y mux(s,{','.join('a' * count)})"], ["input a 1", f"input s {width}"])


def cycles(*counts):
    return one(["assign y a"], bench=[f"cycle {k}" for k in counts])


def bench_value(width_and_value):
    width, value = width_and_value
    return one(["assign y 1'h1"], [f"input a {width}"], bench=[f"set a {value}", "cycle"])


def around(limit, fault):
    """One below the limit and at it there is no fault."""
    return {limit - 1: "", limit: "", limit + 1: fault}


def limit_rows():
    """What the limit is, what makes a text, and for each argument the fault line; "" is no fault."""
    width, select, range_, size = (f"F{it} line 4 path /" for it in ("12 Width", "16 SelectRange", "18 ConstRange", "19 MemorySize"))
    far = {key: value.replace("line 4", "line 7") for key, value in (("width", width), ("select", select))}
    blocks = "F4 Misplaced line 68 path -"
    yield "bytes of a text", padded, around(4_194_304, "F1 TooLong line 0 path -")
    yield "round brackets of signals", lambda n: one([f"assign y {nested('not(', n, 'a')}"]), around(64, SYNTAX.format(4))
    yield "round brackets of numbers", lambda n: statement("wire w {}")(nested("(", n, "1")), around(64, SYNTAX.format(4))
    yield "square and round brackets", lambda n: statement("let x[{}] a")(nested("(", n - 1, "1")), around(64, SYNTAX.format(4))
    yield "operators of a sum", lambda n: statement("wire w 1{}")("+0" * n), around(32, SYNTAX.format(4))
    yield "operators of a product", lambda n: statement("wire w 1{}")("*1" * n), around(32, SYNTAX.format(4))
    for what, line in (("circuit", 1), ("port", 2), ("let", 4), ("label", 5)):
        yield f"bytes of a name ({what})", named(what), around(64, SYNTAX.format(line))
    yield "open blocks", lambda n: one([*["if 1"] * n, "assign y a", *["end"] * n]), around(64, blocks)
    yield "open loops", lambda n: one([*[f"for i{k} 0 1" for k in range(n)], "assign y a", *["end"] * n]), around(64, blocks)
    yield "lines and turns of a body", counted, around(65_536, "F26 TooManyStatements line {} path /")
    yield "inputs", ports("input"), around(128, "F25 PortCount line 130 path /")
    yield "outputs", ports("output"), around(128, "F25 PortCount line 130 path /")
    yield "weight of a body", lambda n: lines(heavy(n), "top t"), around(262_144, "F27 CircuitWeight line {} path /")
    yield "levels", deep, around(64, "F29 TooDeep line 4 path " + "/u" * 63)
    yield "levels without an end", endless, dict.fromkeys(("u", "uv", "uvwx"), "F29 TooDeep line 3 path " + "/u" * 63)
    yield "instances", instances, around(65_536, "F30 TooManyInstances line 16 path /")
    yield "weight of a tree", heavy_tree, around(4_194_304, "F31 DesignWeight line {} path /")
    yield "words of a body", own_words, around(4_194_304, "F32 DesignWords line 1 path /")
    yield "words of a tree", words_of_calls, around(4_194_304, "F32 DesignWords line {} path /")
    yield "memory size", lambda n: one([f"memory m {n} 1", "assign y read(m,a)"]), {0: size, 1: "", **around(65_536, size)}
    yield "cycles", cycles, {0: "", **around(1_000_000, "F36 TooManyCycles line 7 path -"), LAST: "F36 TooManyCycles line 7 path -"}
    yield "cycles of two lines", lambda n: cycles(999_999, n), around(1, "F36 TooManyCycles line 8 path -")
    yield "width", statement("wire w {}"), {0: width, 1: "", **around(128, width), LAST: width, f"-{LAST}-1": width}
    yield "width of a product", wide, {"assign y mulu(a,a)": "", "assign y muls(a,b)": far["width"]}
    yield "width of a cat", wide, {"assign y cat(a,a)": "", "assign y cat(a,b)": far["width"]}
    copies = {0: far["width"], **around(128, far["width"]), LAST: far["width"]}
    yield "copies", lambda n: wide(f"let z repeat(d,{n})").replace("top", "assign y c\ntop"), copies
    yield "shifts", lambda n: wide(f"assign y sra(c,{n})"), {-1: far["select"], 0: "", 127: "", 128: "", LAST: ""}
    selected = {"127,127": "", "0,0": "", **dict.fromkeys(("128,128", "0,1", "0,-1", f"{LAST},{LAST}"), far["select"])}
    yield "selected bits", lambda part: wide(f"assign y select(c,{part})", "output y 1"), selected
    many = "F17 MuxCount line 5 path /"
    yield "cases", cases, {(1, 2): "", (1, 3): many, (8, 255): "", (8, 256): "", (8, 257): many}
    digits = {"h" + "f" * 32: "", "h" + "0" * 33: SYNTAX.format(7), "b" + "1" * 128: "", "b" + "0" * 129: SYNTAX.format(7)}
    yield "digits of a literal", lambda part: wide(f"assign y 128'{part}"), digits
    literals = {"1'h1": "", "1'h2": range_, "0'h0": width, "129'h0": width, f"{LAST}'h0": width, f"{LAST + 1}'h0": SYNTAX.format(4)}
    yield "values of a literal", statement("let z {}"), literals
    fits = {f"63,{LAST}": "", f"62,{LAST}": range_, f"64,-{LAST}-1": "", f"63,-{LAST}-1": range_, "1,-1": "", "1,-2": range_}
    yield "values of a constant", statement("let z const({})"), fits
    wholes = {f"{LAST}": "", f"{LAST + 1}": SYNTAX.format(3), "9" * 40: SYNTAX.format(3), "0" * 40 + f"{LAST}": ""}
    yield "whole numbers", number, wholes
    yield "ends of 64 bits", number, {part: "" if fits else "F11 Number line 3 path /" for part, fits in ENDS.items()}
    turns = {f"-{LAST}-1": "", f"-{LAST}": "", f"{LAST}": "F26 TooManyStatements line 4 path /"}
    yield "turns of a loop", lambda part: one([f"for i (-{LAST}-1) ({part})", "end", "assign y a"]), turns
    yield "values of a bench", bench_value, {part: "" if fits else "F35 BenchValue line 7 path -" for part, fits in BENCH_VALUES.items()}


ENDS = {
    f"{LAST}+1": False,
    f"{LAST}-1+1": True,
    f"-{LAST}-1": True,
    f"-{LAST}-2": False,
    f"-(-{LAST}-1)": False,
    f"(-{LAST}-1)/(-1)": False,
    f"(-{LAST}-1)%(-1)": True,
    f"(-{LAST}-1)*(-1)": False,
    f"{LAST}*{LAST}": False,
    "3037000499*3037000499": True,
    "3037000500*3037000500": False,
    "1/0": False,
    "1%0": False,
    f"bits({LAST})": True,
    "bits(0)": True,
    "bits(-1)": False,
    f"{LAST}-(-1)": False,
    f"-{LAST}+(-1)": True,
}
BENCH_VALUES = {
    (1, "1"): True,
    (1, "2"): False,
    (1, "-1"): True,
    (1, "-2"): False,
    (8, "255"): True,
    (8, "256"): False,
    (8, "-128"): True,
    (8, "-129"): False,
    (128, f"-{LAST}"): True,
    (128, "128'h" + "f" * 32): True,
    (128, "127'h1"): False,
    (4, "4'hf"): True,
    (4, "4'h10"): False,
    (63, f"{LAST}"): True,
    (62, f"{LAST}"): False,
}
# ---- work at the limits -------------------------------------------------------------------------------------------------


def names(count, length=3):
    """Names of letters, each of this length."""
    letters = "abcdefghijklmnopqrstuvwxyzABCDEFGHIJKLMNOPQRSTUVWXYZ"
    for k in range(count):
        name = ""
        for _ in range(length):
            k, letter = divmod(k, 52)
            name += letters[letter]
        yield name + "_"


def nots(count, cycles=1):
    """A chain of nots, one a line."""
    chain = ["let x[0] a", f"for i 0 {count}", "let x[i+1] not(x[i])", "end", f"assign y x[{count}]"]
    return one(chain, bench=["set a 1", *([f"cycle {cycles}"] if cycles else [])])


def longest_body(cycles=1):
    """A chain of 130,000 nots in one body of almost the greatest weight, 60 in a line."""
    chain = ["let x[0] a", "for i 0 2100", f"let x[i+1] {nested('not(', 60, 'x[i]')}", "end", "assign y x[2100]"]
    return one(chain, bench=["set a 1", f"cycle {cycles}"])


def flat_chain(cycles=1):
    """16 instances of such a body in a row: 2,016,000 nots when it is flat."""
    chain = ["circuit c", "input a 1", "output y 1", "let x[0] a", "for i 0 2100"]
    chain += [f"let x[i+1] {nested('not(', 60, 'x[i]')}", "end", "assign y x[2100]"]
    top = ["circuit t", "input a 1", "output y 1", "inst u[0] c : a=a", "for i 1 16", "inst u[i] c : a=u[i-1].y", "end", "assign y u[15].y"]
    return lines(chain, top, "top t", "bench", "set a 1", f"cycle {cycles}", "end")


def distinct_circuits():
    """65,536 instances of as many circuits, all different, each written out."""
    each = list(names(65_535))
    circuits = [f"circuit {it}\noutput y 16\nassign y 16'h{k:x}" for k, it in enumerate(each)]
    return lines(circuits, "circuit t", "output y 1", [f"inst {it}{it} {it}:" for it in each], "assign y 1'h1", "top t")


def distinct_calls():
    """65,535 instances of a circuit with as many arguments, all different and of one name."""
    leaf = ["circuit f n", "output y 64", "assign y const(64,n)"]
    half = ["circuit h n", "output y 1", "for i 0 32766", "inst u[i] f (i+n) :", "end", "assign y select(u[32765].y,0,0)"]
    return lines(leaf, half, "circuit t", "output y 1", "inst u h 0 :", "inst v h 40000 :", "assign y and(u.y,v.y)", "top t")


def many_ports(depth=1):
    """Circuits with 128 inputs and 128 outputs of 128 bits, in a row of instances."""
    ins, outs = [f"input i{k} 128" for k in range(128)], [f"output o{k} 128" for k in range(128)]
    leaf = ["circuit c", ins, outs, [f"assign o{k} xor(i{k},i{127 - k})" for k in range(128)]]
    flat = lambda parts: [line for part in parts for line in ([part] if isinstance(part, str) else part)]
    first = "inst u[0] c : " + " ".join(f"i{k}=i{k}" for k in range(128))
    next_ = "inst u[j] c : " + " ".join(f"i{k}=u[j-1].o{k}" for k in range(128))
    top = ["circuit t", ins, outs, first, f"for j 1 {depth}", next_, "end", [f"assign o{k} u[{depth - 1}].o{k}" for k in range(128)]]
    return lines(flat(leaf), flat(top), "top t", "bench", [f"set i{k} -1" for k in range(0, 128, 2)], "cycle 100", "end")


def doubling():
    """Each level has two of the next, and there are 64: too many instances."""
    return lines("circuit d n", "output y 1", "inst u d (n-1) :", "inst v d (n-1) :", "assign y u.y", "top d 64")


def longest_mux(cycles=3):
    """A mux of 262,000 cases."""
    bench = ["set s 200001", "set b 1", f"cycle {cycles}"]
    return one([f"assign y mux(s,{','.join('ab' * 131_000)})"], ["input s 128", "input a 1", "input b 1"], bench=bench)


def longest_verilog():
    """16 modules, each with a mux of 261,000 cases whose names have 64 bytes."""
    s, a = "s" * 64, "a" * 64
    leaf = ["circuit f n", f"input {s} 128", f"input {a} 128", "output y 128", f"let a {a}"]
    leaf += [f"assign y mux({s},const(128,n),{','.join('a' * 261_000)})"]
    each = ["let x[0] s", "for i 0 16", f"inst u[i] f i : {s}=s {a}=s", "let x[i+1] xor(x[i],u[i].y)", "end"]
    return lines(leaf, "circuit t", "input s 128", "output y 128", each, "assign y x[16]", "top t")


def written_memory(cycles=1_000_000):
    """65,536 words of which one is written and read in each cycle."""
    body = ["wire n 16", "reg at n", "assign n add(at,16'h1)", "memory m 65536 16", "write m 1'h1 at n", "assign y read(m,at)"]
    return one(body, (), "output y 16", [f"cycle {cycles}"])


def write_ports(cycles=1):
    """15,000 reads of a memory with 20,000 write ports."""
    body = ["memory m 65536 1", "for i 0 20000", "write m a b a", "end", "let x[0] a"]
    body += ["for i 0 12000", "let x[i+1] read(m,x[i])", "end", "assign y x[12000]"]
    return one(body, ["input a 1", "input b 16"], bench=["set a 1", f"cycle {cycles}"])


def one_label():
    """30,000 nodes of one label, in a row."""
    body = ["let x[0] a", "for i 0 21000", "let x[i+1] not(x[i])", "label x[i+1] n5", "end", "assign y x[21000]"]
    return one(body)


def row_of_instances():
    """32,000 instances in a row, of a circuit of one not."""
    leaf = ["circuit c", "input a 1", "output y 1", "assign y not(a)"]
    top = ["circuit t", "input a 1", "output y 1", "inst u[0] c : a=a", "for i 1 30000", "inst u[i] c : a=u[i-1].y", "end", "assign y u[29999].y"]
    return lines(leaf, top, "top t", "bench", "set a 1", "cycle", "end")


def repeated_circuits():
    """As many circuits as 4 MB can name, and one more of the first name."""
    each = list(names(270_000, 4))
    return lines([f"circuit {it}" for it in each], "circuit " + each[0], "top t")


def many_parameters(turns, used):
    """A circuit with 300,000 parameters, one of which every turn of a loop uses."""
    each = list(names(300_000, 4))
    name = {"first": each[0], "last": each[-1]}[used]
    body = [f"for i 0 {turns}", f"let x[i] const(8,{name})", "end", "assign y 1'h1"]
    return lines("circuit c " + " ".join(each), "output y 1", body, "top c " + " ".join("1" * 300_000))


def many_inputs():
    """A circuit with 150,000 inputs, each connected."""
    each = list(names(150_000, 4))
    leaf = ["circuit c", *[f"input {it} 1" for it in each], "output y 1", "assign y 1'h1"]
    instance = "inst u c : " + " ".join(f"{it}=a" for it in each)
    return lines(leaf, "circuit t", "input a 1", "output y 1", instance, "assign y u.y", "top t")


def many_arguments(turns=2_000):
    """Calls with 20,000 arguments, of which the first differs."""
    each = list(names(20_000))
    leaf = ["circuit c " + " ".join(each), "output y 1", "assign y 1'h1"]
    instance = "inst u[i] c i " + " ".join("1" * 19_999) + " :"
    return lines(leaf, "circuit t", "output y 1", f"for i 0 {turns}", instance, "end", "assign y 1'h1", "top t")


def long_numbers(turns):
    """A number of 300,000 operators in a loop."""
    part = "(1" + "+i-i" * 16 + ")"
    for _ in range(3):
        part = "(0" + f"*{part}" * 21 + ")"
    return lines("circuit t", "output y 1", f"for i 0 {turns}", f"wire w[i] (1+{part})", "end", "assign y 1'h1", "top t")


def many_sets():
    """A bench of 280,000 lines for the last of 128 inputs whose names differ in their last bytes."""
    name = "i" * 58
    heads = [f"input {name}{k:03} 1" for k in range(128)]
    return lines("circuit t", heads, "output y 1", "assign y 1'h1", "top t", "bench", [f"set {name}127 {k % 2}" for k in range(60_000)], "end")


def wide_loop():
    """A loop through 30,000 nodes."""
    return one(["wire w 1", "let x[0] w", "for i 0 30000", "let x[i+1] not(x[i])", "end", "assign w x[30000]", "assign y w"])


def same_prefix():
    """Names of 64 bytes that differ in their last ones."""
    name = "n" * 59
    return one([*[f"let {name}{k:05} a" for k in range(20_000)], *[f"let z[{k}] {name}{k:05}" for k in range(20_000)], "assign y a"])


def parsed(item, before="", after=""):
    """As many of the item as a text holds."""
    return before + item * ((4_194_000 - len(before) - len(after)) // len(item)) + after


def long_number(count):
    """One number that names the first of as many parameters as often."""
    each = list(names(count, 4))
    parts = ["(" + "+".join([each[0]] * 32) + ")"] * (count // 32)
    while len(parts) > 1:
        parts = ["(" + "+".join(parts[k : k + 32]) + ")" for k in range(0, len(parts), 32)]
    return lines("circuit c " + " ".join(each), "output y 1", f"wire w (1+{parts[0]})", "assign y 1'h1", "top c " + " ".join("0" * count))


def many_outputs(count):
    """A circuit with many outputs, of which the last is used in each turn of a loop."""
    each = list(names(count, 4))
    leaf = ["circuit c", *[f"output {it} 1" for it in each], f"assign {each[0]} 1'h1"]
    return lines(leaf, "circuit t", "output y 1", "inst u c :", "for i 0 30000", f"let x[i] u.{each[-1]}", "end", "assign y 1'h1", "top t")


LEVELS = {
    "126,000 nots": ["let x[0] a", "for i 0 2090", f"let x[i+1] {nested('not(', 60, 'x[i]')}", "end"],
    "30,000 instances": ["if n>1", "for i 0 32000", "inst v[i] d (n-1) : a=a", "end", "end"],
    "1,900 instances of 128 outputs": ["for i 0 1900", "inst v[i] e :", "end"],
}


def levels(body):
    """64 levels of circuits with this body, each of which has the next."""
    leaf = ["circuit e", *[f"output o{k} 128" for k in range(128)], *[f"assign o{k} 128'h1" for k in range(128)]]
    ends = ["if n>1", "inst u d (n-1) : a=a", "assign y u.y", "else", "assign y a", "end"]
    return lines(leaf, "circuit d n", "input a 1", "output y 1", body, ends, "top d 64")


ROW = b"0 y=1 | y=1\n"
BODY = "circuit t\ninput a 1\noutput y 1\n"


class Work(NamedTuple):
    """A run: its text, its status, what it writes where that is told here, and what it may take: seconds and MiB. The ones that
    are not quick stand outside the gate."""

    name: str
    words: str
    make: Callable[[], str]
    status: int = 0
    due: Optional[bytes] = None
    seconds: int = 10
    memory: int = 1024
    quick: bool = True


def work_rows():
    def fault(line):
        return {"status": 1, "due": line.encode() + b"\n"}

    for words in ("sim", "sim --flat"):
        yield Work("chain of 30,000 nots", words, lambda: nots(30_000), 0, ROW, 3, 200)
    yield Work("chain of 30,000 nots, 100 cycles", "sim", lambda: nots(30_000, 100), 0, None, 5, 200)
    for words in ("verilog", "sim", "sim --flat"):
        yield Work("body of 126,000 nodes", words, longest_body, 0, ROW if "sim" in words else None, 5, 200)
    for words in ("stat", "verilog"):
        yield Work("tree of 2,016,000 nodes", words, flat_chain, memory=200)
    yield Work("tree of 2,016,000 nodes", "verilog --flat", flat_chain, 0, None, 20, 2048, False)
    for words in ("sim", "sim --flat"):
        yield Work("tree of 2,016,000 nodes", words, flat_chain, 0, ROW, 20, 1024, False)
    yield Work("65,535 calls of one name", "verilog", distinct_calls)
    yield Work("65,536 circuits written out", "verilog", distinct_circuits, 0, None, 60, 1024, False)
    yield Work("128 ports of 128 bits", "both", many_ports, 0, None, 5, 200)
    for words in ("both", "both --flat"):
        yield Work("128 ports of 128 bits, 470 instances", words, lambda: many_ports(470), memory=400)
    yield Work("64 levels of two", "stat", doubling, 1)
    yield Work("mux of 262,000 cases", "verilog", longest_mux, memory=200)
    yield Work("mux of 262,000 cases, 1,000 cycles", "sim", lambda: longest_mux(1000), memory=200)
    yield Work("longest Verilog", "verilog", longest_verilog, 0, None, 60, 2048, False)
    yield Work("65,536 words, 10,000 cycles", "sim", lambda: written_memory(10_000), memory=200)
    for words in ("sim", "sim --flat"):
        yield Work("65,536 words, a million cycles", words, written_memory, 0, None, 20, 200, False)
        yield Work("12,000 reads of 20,000 ports", words, write_ports, 0, b"0 y=0 | y=1\n", 10, 200)
    yield Work("21,000 equal labels", "verilog", one_label, memory=200)
    for words in ("verilog", "sim", "sim --flat"):
        yield Work("30,000 instances in a row", words, row_of_instances, 0, b"0 y=1 | y=1\n" if "sim" in words else None)
    yield Work("most instances", "verilog --flat", lambda: instances(65_536), memory=200)
    yield Work("270,000 circuits", "stat", repeated_circuits, 1)
    yield Work("60,000 bench lines", "sim", many_sets, 0, b"")
    yield Work("loop through 30,000 nodes", "stat", wide_loop, **fault("F33 CombLoop line 0 path /"))
    yield Work("40,000 long names", "stat", same_prefix)
    # Lists that no limit bounds but that of the text, and each item looked up in another such list.
    yield Work("300,000 parameters, the last in 1,000 turns", "stat", lambda: many_parameters(1000, "last"), quick=False)
    yield Work("300,000 parameters, the first in 1,000 turns", "stat", lambda: many_parameters(1000, "first"), quick=False)
    yield Work("a number of 80,000 names, of 80,000 parameters", "stat", lambda: long_number(80_000), seconds=60, quick=False)
    yield Work("150,000 connections of 150,000 inputs", "stat", many_inputs, 1, None, 90, 1024, False)
    yield Work("30,000 uses of 100,000 outputs", "stat", lambda: many_outputs(100_000), 1, None, 60, 1024, False)
    yield Work("2,000 calls with 20,000 arguments", "stat", many_arguments, 0, None, 60, 2048, False)
    yield Work("numbers of 300,000 operators, 100 turns", "stat", lambda: long_numbers(100), 0, None, 20, 1024, False)
    for name, body in LEVELS.items():
        yield Work(f"64 levels of {name}", "stat", lambda body=body: levels(body), 1, None, 30, 4096, False)
    for name, item in {"spaces": " ", "empty lines": "\n", "comments": "#\n"}.items():
        yield Work(f"4 MB of {name}", "stat", lambda item=item: parsed(item), memory=200, **fault("F8 NoTop line 0 path -"))
    for name, item in {"brackets": "(", "digits": "1", "one word": "a", "words": "a ", "signs": "+"}.items():
        yield Work(f"4 MB of {name}", "stat", lambda item=item: parsed(item), memory=400, **fault("F3 Syntax line 1 path -"))
    rest = "assign y a\ntop t\n"
    for name, item, before, after, wanted in (
        ("cases", "a,", BODY + "assign y mux(a,", "a)\ntop t\n", "F17 MuxCount line 4 path /"),
        ("parts", "a,", BODY + "assign y cat(", "a)\ntop t\n", "F12 Width line 4 path /"),
        ("sums", "+1", BODY + "wire w 1", "\n" + rest, "F3 Syntax line 4 path -"),
        ("statements", "let a a\n", BODY, rest, "F14 RepeatedName line 4 path /"),
        ("heads", "input a 1\n", "circuit t\n", "output y 1\n" + rest, "F14 RepeatedName line 3 path /"),
        ("parameters", "a ", "circuit t ", "\noutput y 1\nassign y 1'h1\ntop t\n", "F10 ArgCount line 4 path /"),
        ("connections", "a=a ", BODY + "inst u t : ", "\n" + rest, "F22 RepeatedPort line 4 path /"),
        ("arguments", "1 ", BODY + "assign y a\ntop t ", "\n", "F10 ArgCount line 5 path /"),
    ):
        text = parsed(item, before, after)
        yield Work(f"4 MB of {name}", "stat", lambda text=text: text, **fault(wanted))
    yield Work("4 MB of blocks", "stat", lambda: parsed("if 0\nend\n", BODY, rest), 1)
    for name, words in (("cycle", "stat"), ("reset", "sim")):
        yield Work(f"4 MB of {name} lines", words, lambda name=name: parsed(name + "\n", BODY + rest + "bench\n", "end\n"))
