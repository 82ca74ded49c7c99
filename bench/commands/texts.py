"""The texts that the bench of the commands reads: each is hard in its own way, and has at most SIZE bytes.

Each function gives (name, text) pairs. `size` is 262,144 bytes for the whole bench, the most that a run reads; the small bench takes less.
"""
import random

SIZE = 262144
OIL = """OIL_VERSION = "2.5";
CPU c {
OS o { STATUS = EXTENDED; };
APPMODE M { };
TASK T { PRIORITY = 1; SCHEDULE = FULL; ACTIVATION = 1; AUTOSTART = TRUE { APPMODE = M; }; };
};
"""
# One task and one routine, which the long schedule lets arrive again and again.
ARRIVING_OIL = OIL.replace("};\n};\n", "};\nISR I { CATEGORY = 2; PRIORITY = 1; };\n};\n")
ARRIVING_C = "uint8_t x;\nISR(I) {\n  x = 1;\n}\nTASK(T) {\n  TerminateTask();\n}\n"


def filled(size, piece, front="", back=""):
    """As many pieces as there is room for, between what stands before and behind them."""
    return front + piece * ((size - len(front) - len(back)) // len(piece)) + back


def oil_texts(size):
    """Nesting, long tokens and many tokens, for the reader of OIL; then names, references, attributes and objects, for its rules."""
    head, end = 'OIL_VERSION="2.5";', "CPU c{};"
    deep = (size - len(head + "IMPLEMENTATION i;" + end)) // 2
    yield "deepest", head + "IMPLEMENTATION i" + "{" * deep + "}" * deep + ";" + end
    yield "unclosed", (head + "IMPLEMENTATION i" + "{" * size)[:size]
    yield "long_name", head + "CPU " + "c" * (size - len(head) - 10) + "{};"
    yield "long_string", 'OIL_VERSION="' + "x" * (size - 40) + '";CPU c{};'
    yield "long_number", head + "CPU c{K n{A=" + "1" * (size - 60) + ";};};"
    yield "long_comment", head + "CPU c{};/*" + "*" * (size - 60) + "*/"
    yield "marks", head + "IMPLEMENTATION i{" + "=" * (size - 60) + "};CPU c{};"
    yield "eight_levels", filled(size, "A=1{" * 7 + "A=1;" + "};" * 7, head + "CPU c{K n{", "};};")
    front = 'OIL_VERSION = "2.5"; CPU c { OS o { STATUS = EXTENDED; };\nAPPMODE M { };\n'
    task = "TASK T { PRIORITY = 1; SCHEDULE = FULL; ACTIVATION = 1; AUTOSTART = TRUE {%s }; %s};\n"
    plain = task % (" APPMODE = M;", "")
    for name, piece in [
        ("modes", "APPMODE M%d { };\n"),
        ("counters", "COUNTER C%d { };\n"),
        ("resources", "RESOURCE R%d { RESOURCEPROPERTY = STANDARD; };\n"),
        ("tasks", "TASK T%d { PRIORITY = 1; SCHEDULE = FULL; ACTIVATION = 1; AUTOSTART = FALSE; };\n"),
    ]:
        text, at = front + plain, 0
        while len(text) + len(piece % at) + 3 <= size:
            text, at = text + piece % at, at + 1
        yield name, text + "};\n"
    left = size - len(front) - len(plain) - 100
    resource = "RESOURCE R { RESOURCEPROPERTY = STANDARD; };\n"
    yield "references", front + resource + task % (" APPMODE = M;", "RESOURCE = R; " * (left // 14 - 4)) + "};\n"
    yield "modes_of_a_task", front + task % (" APPMODE = M;" * (left // 13), "") + "};\n"
    yield "attributes", front + task % (" APPMODE = M;", "A = 1; " * (left // 7)) + "};\n"


def token_texts(size):
    """Blanks, long and short tokens, comments and defined names, for the splitter of C texts into tokens."""
    defines = "".join(f"#define N{i} {i}\n" for i in range(size // 262))
    names = " ".join(f"N{i}" for i in range(size // 262)) + "\n"
    yield "blanks", " " * size
    yield "one_name", "a" * size
    yield "short_names", filled(size, "a ")
    yield "one_number", "0" * size
    yield "long_marks", filled(size, ">>=")
    yield "comments", filled(size, "/**/")
    yield "line_comments", filled(size, "//\n")
    yield "includes", filled(size, "#include\n")
    yield "defines", filled(size, names, defines)
    yield "long_name_defined", filled(size, "b" * (size // 7) + "\n", "#define " + "b" * (size // 7) + " 1\n")
    yield "gaps", "#define" + " /**/" * (size // 9) + "X" + " /**/" * (size // 14) + "1\nX"


def nested_texts(size):
    """Deep nesting, many statements and long lists, for the reader of C."""

    def body(piece):
        return filled(size, piece, "TASK(T){", "}")

    yield "empty_statements", body(";")
    yield "increments", body("a++;")
    yield "calls", body("f();")
    yield "signs", body("a=" + "-+" * 31 + "-b;")
    yield "parentheses", body("a=" + "(" * 63 + "b" + ")" * 63 + ";")
    yield "casts", body("a=" + "(int)" * 63 + "b;")
    yield "indices", body("a=" + "b[" * 63 + "b" + "]" * 63 + ";")
    yield "conditionals", body("a=b" + "?b:b" * 63 + ";")
    yield "all_levels", body("a=b||b&&b|b^b&b==b<b<<b+b*b;")
    yield "one_call", filled(size, ",a", "TASK(T){f(a", ");}")
    yield "nested_ifs", body("if(a){" * 63 + "b=1;" + "}" * 63)
    yield "else_ifs", filled(size, "else if(a){}", "TASK(T){if(a){}", "}")
    yield "one_local", filled(size, ",a", "TASK(T){int a", ";}")
    yield "variables", filled(size, "int a;")
    yield "initialiser", filled(size, ",1", "int a[9]={1", ",};")
    yield "functions", filled(size, "int f(){}")
    yield "too_deep", filled(size, ";", "TASK(T){", "{" * 65)
    yield "usual", body("if (count < 4) { samples[count] = v; count = count + 1; }\n")


def named_texts(size):
    """Many names that are used many times, for the rules of C."""
    random.seed(7)
    many = size // 262
    names = [f"n{i:03}" for i in range(many)]
    uses = [random.choice(names) for _ in range(10 * many)]
    copies = "".join(f"{a}={b};\n" for a, b in zip(uses[::2], uses[1::2]))
    locals_ = "".join("int " + ",".join(f"{name}=1" for name in names[i : i + 50]) + ";\n" for i in range(0, many, 50))
    blocks = "".join("{int " + ",".join(f"{name}=1" for name in names[i : i + 20]) + ";\n" for i in range(0, many, 20))
    yield "many_variables", "int " + ",".join(names) + ";\nTASK(T){\n" + copies + "}\n"
    yield "many_locals", "TASK(T){\n" + locals_ + copies + "}\n"
    yield "many_functions", "".join(f"void {name}(){{}}\n" for name in names) + "TASK(T){\n" + "".join(f"{name}();\n" for name in uses) + "}\n"
    yield "many_blocks", "TASK(T){\n" + blocks + copies + "}" * (len(blocks.split("{")) - 1) + "}\n"
    last = size // 26
    yield "function_chain", "".join(f"void f{i}(){{f{i + 1}();}}\n" for i in range(last)) + f"void f{last}(){{}}\nTASK(T){{f0();TerminateTask();}}\n"


def lowered_texts(points):
    """Units of `points` points and nearly 8,192 bits of cells, each hard to lower in its own way, and calls into more points than are taken."""
    inner = points - 2

    def cells(arrays, words=0):
        return "".join(f"uint32_t a{i}[64];\n" for i in range(arrays)) + "".join(f"uint32_t v{i};\n" for i in range(words))

    def signed(words):
        return "".join(f"int32_t v{i};\n" for i in range(words))

    def task(front, body):
        return front + "TASK(T) {\n" + body + "TerminateTask();\n}\n"

    def sum_of(reads):
        return "v0=" + "+".join(f"v{i}" for i in range(reads)) + ";\n"

    called = [f"f{i + 1}(); " * 16 for i in range(15)] + ["a0[0] = 1; "]
    chain = "".join(f"void f{i}() {{ {body}}}\n" for i, body in enumerate(called))
    yield "refused_calls", task(cells(1) + chain, "f0();\n" * 16)
    yield "assignments", task(cells(4), "a0[0]=1;\n" * inner)
    yield "operators", task(cells(4), ("a0[0]=1" + "+1" * 58 + ";\n") * inner)
    yield "sums", task(cells(2, 64), sum_of(64) * (inner // 66))
    yield "signed_sums", task(cells(2) + signed(64), sum_of(64) * (inner // 66))
    yield "guarded_sums", task(cells(3, 1), ("a0[0]=(1" + "+1" * 60 + ")&&v0;\n") * (inner // 2))
    yield "indexed", task(cells(3, 1), ("v0=" + "a0[" * 63 + "0" + "]" * 63 + ";\n") * (inner // 66))
    yield "tests", task(cells(3, 63), "if(v0==0){}else{}\n" * (inner // 2))
    yield "loops", task(cells(4), ("for(;1;){" * 62 + "}" * 62 + "\n") * (inner // 62))
    yield "plain_calls", task(cells(4) + "void f() { }\n", "f();\n" * (inner // 2))


def schedule(lines):
    """A schedule of about so many lines in which the routine arrives again and again (four lines each time)."""
    return "arrive I\ngo\ngo\ngo\n" * (lines // 4)


def certificate(size, steps):
    """A certificate of about `size` bytes whose lines are all derived, over a formula of `steps` clauses.

    Clause i of the formula says 'i implies i + 1 or side i'. A line joins several neighbours among the clauses and lines so far, so that it
    says 'a implies b or one of the sides between them'. The verdict is 'undecided', with a budget of as many lines as there are.
    """
    random.seed(7)

    def clause(a, b):
        return "-%d %d " % (a, b) + "".join("%d " % (steps + 1 + side) for side in range(a, b)) + "0"

    lines, starting, number = [], [[] for _ in range(steps + 2)], steps + 1
    for i in range(1, steps + 1):
        starting[i].append((i + 1, i))
    written = sum(len(clause(i, i + 1)) + 1 for i in range(1, steps + 1))
    while written < size:
        a = at = random.randint(1, steps)
        hints = []
        for _ in range(random.randint(2, 12)):
            joined = [s for s in starting[at] if s[0] - a <= 40]
            if not joined:
                break
            at, hint = random.choice(joined)
            hints.append(hint)
        if len(hints) >= 2:
            number += 1
            lines.append(clause(a, at) + "".join(" %d" % hint for hint in hints) + " 0\n")
            starting[a].append((at, number))
            written += len(lines[-1])
    front = "oschk certificate 1\nbounds 0 0\nbudget %d\nvariables %d\nclauses %d\n" % (len(lines), 2 * steps + 1, steps)
    formula = "".join(clause(i, i + 1) + "\n" for i in range(1, steps + 1))
    return front + formula + "goal 1 0\nlabels 0\ndepth 0 0 1\nlog\n" + "".join(lines) + "verdict undecided\nend\n"
