"""What of a script's text a Python as old as 2.7 can't read, by its syntax tree and its tokens."""
import ast
import io
import re
import tokenize
from typing import Iterator

PREFIXES = {"", "b", "r", "br"}  # of strings: 2.7 has no `rb`, and 3.0 no `u`
FUTURE = {"absolute_import", "division", "generators", "nested_scopes", "print_function", "unicode_literals", "with_statement"}
FUNCTIONS = ast.FunctionDef, ast.AsyncFunctionDef, ast.Lambda
# By the tree's kind of node: what it is called.
NODES = {"AnnAssign": "annotation", "AsyncFor": "async", "AsyncFunctionDef": "async", "AsyncWith": "async", "Await": "async",
         "JoinedStr": "f-string", "Match": "match", "MatMult": "operator @", "NamedExpr": "assignment in an expression",
         "Nonlocal": "nonlocal", "TryStar": "except with a star", "YieldFrom": "yield from"}
# A text for each word that `newer_parts` says. But for the last two 2.7's `compile` refuses them: of a file alone it wants ASCII, and 3.0 to
# 3.2 have no `u`.
NEWER = {"annotation": "def f(a: int):\n    pass\n", "async": "async def f():\n    pass\n", "f-string": 'f"{1}"\n', "operator @": "a @ b\n",
         "assignment in an expression": "if (a := 1):\n    pass\n", "nonlocal": "def f():\n    a = 1\n    def g():\n        nonlocal a\n",
         "yield from": "def f():\n    yield from g()\n", "parameter behind a star": "def f(*, a):\n    pass\n",
         "parameter by position alone": "def f(a, /):\n    pass\n", "raise from": "raise A from None\n", "star in a target": "a, *b = c\n",
         "star in a list": "[*a]\n", "argument behind a star": "f(*a, b)\n", "stars in a dictionary": "{**a}\n",
         "argument behind two stars": "f(**a, b=1)\n", "word of a class": "class A(metaclass=B):\n    pass\n", "star in a class": "class A(*b):\n    pass\n",
         "print with words": "print(a, file=b)\n", "print in an expression": "a = print\n", "exec in an expression": "a = exec\n", "future": "from __future__ import annotations\n",
         "answer of a generator": "def f():\n    yield 1\n    return 2\n", "ellipsis": "a = ...\n", "decorator": "@a[0]\ndef f():\n    pass\n",
         "prefix rb": 'rb"a"\n', "number with underscores": "1_000\n", "comma behind a star": "f(*a,)\n", "no ASCII": "# \u00e9\n",
         "prefix u": 'u"a"\n'}
# What 2.7 reads, though it looks alike.
OLD = ["f(*a, b=1)\n", "f(b, *a, **c)\n", "def f(a, *b, **c):\n    return a\n", 'br"a"\n', "print(a)\n", "f(a,)\n", "with a as b, c as d:\n    pass\n",
       "from __future__ import print_function\nprint(a, file=b, end='')\n", "@a.b(c)\ndef f():\n    pass\n", "{a: b for a in c}\n",
       "def f():\n    yield 1\n    return\n", "def f():\n    def g():\n        return 1\n    yield g\n", "a[...]\n", "(a, b, 2 ** c,)\n", "f(2 ** c,)\n"]


def newer_parts(text: str) -> list:
    """What it can't read, each once with its first line."""
    tree = ast.parse(text)
    found = [(1, "no ASCII")] * (not text.isascii()) + list(newer_nodes(tree)) + list(newer_tokens(text))
    return sorted({what: line for line, what in sorted(found, reverse=True)}.items())


def newer_nodes(tree: ast.Module) -> Iterator[tuple]:
    futures = {name.name for node in ast.walk(tree) if isinstance(node, ast.ImportFrom) and node.module == "__future__" for name in node.names}
    calls = {id(node.value.func) for node in ast.walk(tree) if isinstance(node, ast.Expr) and isinstance(node.value, ast.Call)}
    in_subscripts = {id(part) for node in ast.walk(tree) if isinstance(node, ast.Subscript) for part in ast.walk(node.slice)}
    elsewhere = {id(part) for node in ast.walk(tree) if isinstance(node, (ast.Call, ast.ClassDef))
                 for part in (node.args if isinstance(node, ast.Call) else node.bases)}
    for node in ast.walk(tree):
        line = getattr(node, "lineno", 1)
        if type(node).__name__ in NODES:
            yield line, NODES[type(node).__name__]
        if getattr(node, "annotation", None) or getattr(node, "returns", None):
            yield line, "annotation"
        if isinstance(node, ast.arguments) and node.kwonlyargs:
            yield node.kwonlyargs[0].lineno, "parameter behind a star"
        if isinstance(node, ast.arguments) and node.posonlyargs:
            yield node.posonlyargs[0].lineno, "parameter by position alone"
        if isinstance(node, ast.Raise) and node.cause:
            yield line, "raise from"
        if isinstance(node, ast.ClassDef) and node.keywords:
            yield line, "word of a class"
        if isinstance(node, ast.ClassDef) and any(isinstance(base, ast.Starred) for base in node.bases):
            yield line, "star in a class"
        elif isinstance(node, ast.Starred) and isinstance(node.ctx, ast.Store):
            yield line, "star in a target"
        elif isinstance(node, ast.Starred) and id(node) not in elsewhere:
            yield line, "star in a list"
        if isinstance(node, ast.Call) and any(isinstance(part, ast.Starred) for part in node.args[:-1]):
            yield line, "argument behind a star"
        if isinstance(node, ast.Call) and any(word.arg is None for word in node.keywords[:-1]):
            yield line, "argument behind two stars"
        if isinstance(node, ast.Dict) and None in node.keys:
            yield line, "stars in a dictionary"
        if isinstance(node, ast.Call) and getattr(node.func, "id", "") == "print" and node.keywords and "print_function" not in futures:
            yield line, "print with words"
        name = getattr(node, "id", getattr(node, "attr", ""))
        if name in ("print", "exec") and id(node) not in calls and (name == "exec" or "print_function" not in futures):
            yield line, f"{name} in an expression"
        if isinstance(node, ast.Constant) and node.value is ... and id(node) not in in_subscripts:
            yield line, "ellipsis"
        if any(not isinstance(part, (ast.Name, ast.Attribute, ast.Load)) for made in getattr(node, "decorator_list", ())
               for part in ast.walk(made.func if isinstance(made, ast.Call) else made)):
            yield line, "decorator"
        if isinstance(node, FUNCTIONS):
            own = list(parts_of(node))
            if any(isinstance(part, ast.Yield) for part in own) and any(isinstance(part, ast.Return) and part.value for part in own):
                yield line, "answer of a generator"
    if futures - FUTURE:
        yield 1, "future"


def parts_of(function: ast.AST) -> Iterator[ast.AST]:
    """The nodes below a function that are in no other one."""
    for part in ast.iter_child_nodes(function):
        yield part
        if not isinstance(part, FUNCTIONS):
            yield from parts_of(part)


def newer_tokens(text: str) -> Iterator[tuple]:
    before, open_brackets = "", []
    for token in tokenize.generate_tokens(io.StringIO(text).readline):
        line, said = token.start[0], token.string
        if token.type == tokenize.STRING:
            prefix = re.match("[a-z]*", said.lower())[0]
            if prefix not in PREFIXES and "f" not in prefix:
                yield line, f"prefix {prefix}"
        if token.type == tokenize.NUMBER and "_" in said:
            yield line, "number with underscores"
        if said in ("*", "**") and before in ("(", ",") and open_brackets:
            open_brackets[-1] = True  # it has an argument with a star
        if token.type == tokenize.OP and said in "([{":
            open_brackets.append(False)
        if token.type == tokenize.OP and said in ")]}" and open_brackets.pop() and before == ",":
            yield line, "comma behind a star"
        before = said if token.type not in (tokenize.NL, tokenize.COMMENT) else before
