"""The mutants of a source in Python: each turns one place of its text, by the positions that `ast` tells."""
import ast
import hashlib
import os
import re

SIGNS = {ast.Lt: "<=", ast.LtE: "<", ast.Gt: ">=", ast.GtE: ">", ast.Eq: "!=", ast.NotEq: "==", ast.In: "not in",
         ast.NotIn: "in", ast.Is: "is not", ast.IsNot: "is", ast.Add: "-", ast.Sub: "+", ast.Mult: "+", ast.Mod: "+",
         ast.FloorDiv: "*", ast.Div: "*", ast.BitAnd: "|"}
SIGN = re.compile(rb"not\s+in|is\s+not|in\b|is\b|//|[<>=!]+|[-+*/%&]")
CALLS = {"sorted": "list", "reversed": "list", "min": "max", "max": "min", "any": "all", "all": "any"}
LEFT_OUT = {"strip", "rstrip", "lstrip", "lower", "upper", "casefold", "resolve", "copy"}  # methods
TEXTS = {"help", "metavar", "description", "epilog", "prog", "usage", "flush"}  # keywords of what people read alone
SEARCHES = {"startswith", "endswith", "get", "pop", "removeprefix", "removesuffix", "partition", "rpartition", "split"}
NAMES = {"ENOENT": "EIO", "LOCK_EX": "LOCK_SH", "LOCK_SH": "LOCK_EX"}
FUNCTIONS = ast.FunctionDef, ast.Lambda
GONE = ast.Expr, ast.Raise, ast.Continue, ast.Break, ast.Delete, ast.Assert, ast.AugAssign


class Mutant:
    """One turned place, with what tests/wrong/around/run's Copies ask of an edit."""

    def __init__(self, source, node, span, new):
        self.source, self.file, self.node, self.new = source, source.file, node, new
        self.start, self.end = span
        self.old, self.line = source.bytes[self.start:self.end].decode(), source.line_of(self.start)

    def text(self):
        return self.source.bytes.decode()

    def edited(self, _=None):
        return (self.source.bytes[:self.start] + self.new.encode() + self.source.bytes[self.end:]).decode()

    def is_one(self):
        """Whether it is Python, and says something else."""
        try:
            compile(self.edited(), self.file, "exec")
        except (SyntaxError, ValueError):
            return False
        return self.old != self.new

    def __str__(self):
        told = "is gone" if self.new in ("", "pass") else f"->  {short(self.new)}"
        return f"{self.file}:{self.line}: {short(self.old)}  {told}"

    @property
    def key(self):
        """Its letters, as long as the function around it stays, and its place there."""
        begin, around = self.source.around(self.line)
        told = self.file, around, self.start - begin, self.end - begin, self.new
        return hashlib.sha256(repr(told).encode()).hexdigest()[:12]


def short(text):
    text = " ".join(text.split())
    return text if len(text) <= 60 else f"{text[:40]} .. {text[-16:]}"


class Source:
    """A file of Python below `top`."""

    def __init__(self, top, file):
        self.file = file
        with open(os.path.join(top, file), "rb") as source:
            self.bytes = source.read()
        self.tree = ast.parse(self.bytes)
        self.starts = [0, *(it.end() for it in re.finditer(rb"\n", self.bytes)), len(self.bytes)]
        self.parents = {below: node for node in ast.walk(self.tree) for below in ast.iter_child_nodes(node)}

    def span(self, node):
        return tuple(self.starts[line - 1] + column for line, column in (
            (node.lineno, node.col_offset), (node.end_lineno, node.end_col_offset)))

    def of(self, node):
        return self.bytes[slice(*self.span(node))].decode()

    def line_of(self, place):
        return self.bytes.count(b"\n", 0, place) + 1

    def around(self, line):
        """Where the function or class of the module begins that has this line, or else the line, and its text."""
        its = [it for it in self.tree.body if it.lineno <= line <= it.end_lineno and hasattr(it, "body")]
        start, end = self.span(its[0]) if its else self.starts[line - 1:line + 1]
        return start, self.bytes[start:end]

    def chain(self, node):
        """The node, and those above it."""
        while node:
            yield node
            node = self.parents.get(node)

    def lines_that_run(self, mutant):
        """The lines of the statement that it is in, as far as that is one; none of what a module or class defines."""
        chain = [*self.chain(mutant.node)]
        if not any(isinstance(it, FUNCTIONS) for it in chain):
            return []
        its = next(it for it in chain if isinstance(it, (ast.stmt, ast.excepthandler)))
        if its is mutant.node:
            return [its.lineno]
        end = its.body[0].lineno - 1 if getattr(its, "body", None) else its.end_lineno
        return [*range(mutant.line, self.line_of(mutant.end) + 1), *range(its.lineno, end + 1)]

    def is_in_body(self, node):
        """Whether it is in what a function does, and so in its code alone."""
        chain = [*self.chain(node)]
        return any(isinstance(it, ast.FunctionDef) and below in it.body for below, it in zip(chain, chain[1:]))

    def names(self, node):
        """What a module or class defines by the statement that has this node."""
        for it in self.chain(node):
            targets = getattr(it, "targets", [it.target] if isinstance(it, ast.AnnAssign) else [])
            if targets:
                return [one.id for target in targets for one in ast.walk(target) if isinstance(one, ast.Name)]
            if isinstance(it, (ast.FunctionDef, ast.ClassDef)):
                return [it.name]
        return []

    def statements(self):
        """The lines on which a statement of a function begins."""
        its = [it for it in ast.walk(self.tree) if isinstance(it, ast.stmt) and self.is_meant(it) and any(
            isinstance(one, FUNCTIONS) for one in [*self.chain(it)][1:])]
        return sorted({it.lineno for it in its if not isinstance(it, (ast.Nonlocal, ast.Pass))})

    def mutants(self):
        """Each, in the order of the text. (Whether it is one takes longer to find out.)"""
        nodes = filter(self.is_meant, ast.walk(self.tree))
        found = (Mutant(self, node, *its) for node in nodes for its in turned(self, node))
        return sorted({(it.start, it.end, it.new): it for it in found}.values(), key=lambda it: it.start)

    def is_meant(self, node):
        """Whether it does something: no text for people, no type, no part of an f-string (which has no place in 3.11).
        """
        if isinstance(node, ast.Expr) and isinstance(node.value, ast.Constant):
            return False
        chain = [*self.chain(node)]
        return not any(isinstance(it, ast.JoinedStr) or isinstance(it, ast.keyword) and it.arg in TEXTS or
                       isinstance(it, ast.If) and self.of(it.test).startswith("__name__") or
                       below in (getattr(it, "annotation", None), getattr(it, "returns", None))
                       for below, it in zip([0, *chain], chain))


def turned(source, node):
    """Pairs of a span and the text that comes there."""
    span, of = source.span, source.of
    if isinstance(node, GONE) or isinstance(node, ast.Assign) and all(
            isinstance(it, (ast.Attribute, ast.Subscript)) for it in node.targets):
        yield span(node), "pass"
    match node:
        case ast.Compare():
            for left, sign, right in zip([node.left, *node.comparators], node.ops, node.comparators):
                yield between(source, left, right), SIGNS[type(sign)]
            for it in node.left, *node.comparators:
                yield from texts(source, it)
        case ast.BoolOp(values=its):  # (what swaps `and` and `or` is refused where each of these is)
            for before, it in zip(its, its[1:]):
                yield (span(before)[1], span(it)[1]), ""
            yield (span(its[0])[0], span(its[1])[0]), ""
        case ast.If(test=test) | ast.While(test=test) | ast.IfExp(test=test):
            if not isinstance(test, (ast.Compare, ast.BoolOp, ast.Constant)):
                yield span(test), f"not ({of(test)})"
        case ast.comprehension(ifs=tests):
            yield from ((span(it), "True") for it in tests)
        case ast.UnaryOp(op=ast.Not(), operand=its):
            yield span(node), of(its)
        case ast.Constant(value=bool(its)):
            yield span(node), str(not its)
        case ast.Constant(value=int(its)):
            is_mode = of(node).startswith("0o") and its < 0o1000
            yield span(node), "0o777" if is_mode else str(its + 1 if its < 3 else 2 * its + 1)
        case ast.Constant(value=float(its)):
            yield span(node), str(its * 2 + 1)
        case ast.BinOp(op=ast.BitOr()):
            yield span(node), of(node.left)
            yield span(node), of(node.right)
        case ast.BinOp() if type(node.op) in SIGNS:
            yield between(source, node.left, node.right), SIGNS[type(node.op)]
        case ast.Attribute(value=ast.Name(id="errno")) if node.attr != "ENOENT":
            yield span(node), "errno.ENOENT"
        case ast.Attribute() if node.attr in NAMES:
            yield span(node), f"{of(node.value)}.{NAMES[node.attr]}"
        case ast.Call():
            yield from of_call(source, node)
        case ast.Return(value=its) if its and not isinstance(its, ast.Constant):
            yield span(its), f"not ({of(its)})" if isinstance(its, (ast.Compare, ast.BoolOp)) else "None"
        case ast.With(items=[ast.withitem(context_expr=its, optional_vars=None)]):  # (a lock, a suppressed fault)
            yield (span(node)[0], span(its)[1]), "if True"
        case ast.ExceptHandler(type=ast.Tuple(elts=its)):
            for it in its:
                yield span(node.type), f"({''.join(f'{of(one)}, ' for one in its if one is not it)})"
        case ast.ExceptHandler(type=its) if its:
            yield span(its), "()"


def of_call(source, node):
    """Another function, a method left out, another text that is looked for, and each argument by a name left out."""
    its = node.func
    if isinstance(its, ast.Name) and its.id in CALLS:
        yield source.span(its), CALLS[its.id]
    if isinstance(its, ast.Attribute) and its.attr in LEFT_OUT:
        yield source.span(node), source.of(its.value)
    if isinstance(its, ast.Attribute) and its.attr in SEARCHES and node.args:
        yield from texts(source, node.args[0])
    for start, end in (source.span(it) for it in node.keywords if it.arg and it.arg not in TEXTS):
        before, behind = source.bytes[:start].rstrip(), source.bytes[end:].lstrip()
        is_last = before.endswith(b",")
        yield (len(before) - is_last, end if is_last else len(source.bytes) - len(behind) + behind.startswith(b",")), ""


def between(source, left, right):
    """Where the sign between two nodes is."""
    start, end = source.span(left)[1], source.span(right)[0]
    return tuple(start + it for it in SIGN.search(source.bytes[start:end]).span())


def texts(source, node):
    """A text that something is compared with, or looked up by, or each of several."""
    for it in getattr(node, "elts", [node]):
        if isinstance(it, ast.Constant) and isinstance(it.value, (str, bytes)):
            yield source.span(it), repr("~" + it.value if isinstance(it.value, str) else b"~" + it.value)
