"""A function's body as a tree, each part with the place where it stands in its file."""
from collections import namedtuple

from source import PAIRS

# `parts` has the parts by name: nodes, lists of nodes, tokens and texts.
Node = namedtuple("Node", "kind start end parts")
Arm = namedtuple("Arm", "pattern body")

ASSIGNING = {"=", "+=", "-=", "*=", "/=", "%=", "&=", "|=", "^=", "<<=", ">>="}
COMPARING = {"==", "!=", "<", "<=", ">", ">="}
LEVELS = [{"||"}, {"&&"}, COMPARING, {"|"}, {"^"}, {"&"}, {"<<", ">>"}, {"+", "-"}, {"*", "/", "%"}]
BLOCK_WORDS = {"if", "match", "loop", "while", "for", "{"}
WITH_BLOCK = {"if", "match", "loop", "while", "for", "block"}
NO_NAMES = {"mut", "ref", "_", "true", "false", "self"}


def children(node):
    """The nodes right below a node, in the order of the text."""
    found = []
    for part in node.parts.values():
        for one in part if isinstance(part, list) else [part]:
            for piece in one if isinstance(one, Arm) else [one]:
                if isinstance(piece, Node):
                    found.append(piece)
    return sorted(found, key=lambda n: n.start)


def walk(node):
    """A node and all below it, in the order of the text."""
    yield node
    for child in children(node):
        yield from walk(child)


class Tree:
    """Reads the body of a function of a source."""

    def __init__(self, source, function):
        self.source, self.tokens = source, source.tokens
        self.at, self.end = function.body[0], function.body[1] + 1
        self.root = self.block()

    # ---- the cursor

    def word(self):
        return self.tokens[self.at].text if self.at < self.end else ""

    def kind(self):
        return self.tokens[self.at].kind if self.at < self.end else ""

    def take(self, text=None):
        token = self.tokens[self.at]
        if text is not None and token.text != text:
            raise ValueError(f"{self.source.path}:{self.source.line(token)}: expected {text}, found {token.text}")
        self.at += 1
        return token

    def took(self, text):
        """Whether `text` stands here; goes past it."""
        if self.word() != text:
            return False
        self.at += 1
        return True

    def node(self, kind, start, **parts):
        return Node(kind, start, self.tokens[self.at - 1].end, parts)

    def here(self):
        return self.tokens[self.at].start

    # ---- statements

    def block(self):
        start, statements, tail = self.here(), [], None
        self.take("{")
        while not self.took("}"):
            if self.took(";"):
                continue
            begin = self.here()
            if self.word() == "let":
                statements.append(self.let())
                continue
            of = self.statement()
            if self.took(";"):
                statements.append(self.node("statement", begin, of=of))
            elif self.word() == "}":
                tail = of
            elif of.kind in WITH_BLOCK:
                statements.append(self.node("statement", begin, of=of))
            else:
                self.take(";")
        return self.node("block", start, statements=statements, tail=tail)

    def statement(self):
        """An expression as a statement: one that begins with a block ends with it."""
        if self.word() in BLOCK_WORDS or self.kind() == "label":
            return self.primary(True)
        return self.expression()

    def let(self):
        start = self.take("let").start
        pattern = self.pattern({"=", ":"})
        type_ = self.type() if self.took(":") else None
        value = self.expression() if self.took("=") else None
        other = self.block() if self.took("else") else None
        self.take(";")
        return self.node("let", start, pattern=pattern, type=type_, value=value, other=other)

    def pattern(self, ends):
        """A pattern: the names that it binds by their paths, and its numbers as literals."""
        start, names, path, literals, depth = self.here(), [], "", [], 0
        while depth or self.word() not in ends:
            token = self.take()
            depth += (token.text in PAIRS) - (token.text in PAIRS.values())
            if token.kind == "int":
                literals.append(Node("literal", token.start, token.end, {"token": token}))
            if token.kind == "name" and token.text not in NO_NAMES:
                if self.word() == "::" or self.tokens[self.at - 2].text == "::":
                    path = path + token.text + ("::" if self.word() == "::" else "")
                else:
                    names.append(token.text)
        return self.node("pattern", start, names=names, path=path, literals=literals)

    def type(self):
        """A type, as its text."""
        start = self.here()
        while self.word() == "&" or self.word() == "mut" or self.kind() == "label":
            self.take()
        if self.word() in PAIRS:
            self.at = self.source.closing(self.at) + 1
        else:
            self.take()
            while self.took("::"):
                self.take()
        return self.source.text[start:self.tokens[self.at - 1].end]

    # ---- expressions; `struct` says whether a name before a brace is a struct's

    def expression(self, struct=True):
        start = self.here()
        left = self.range(struct)
        if self.word() in ASSIGNING:
            operator = self.take()
            return self.node("assign", start, left=left, operator=operator, right=self.expression(struct))
        return left

    def range(self, struct):
        start = self.here()
        left = None if self.word() in ("..", "..=") else self.binary(0, struct)
        if self.word() not in ("..", "..="):
            return left
        operator = self.take()
        open_ended = self.word() in (")", "]", "}", ",", ";") or (self.word() == "{" and not struct)
        right = None if open_ended else self.binary(0, struct)
        return self.node("range", start, left=left, operator=operator, right=right)

    def binary(self, level, struct):
        if level == len(LEVELS):
            return self.cast(struct)
        start = self.here()
        left = self.binary(level + 1, struct)
        while self.word() in LEVELS[level]:
            operator = self.take()
            left = self.node("binary", start, left=left, operator=operator, right=self.binary(level + 1, struct))
        return left

    def cast(self, struct):
        start = self.here()
        of = self.unary(struct)
        while self.took("as"):
            of = self.node("cast", start, of=of, type=self.type())
        return of

    def unary(self, struct):
        start = self.here()
        if self.word() not in ("-", "!", "*", "&"):
            return self.postfix(struct)
        operator = self.take()
        if operator.text == "&":
            self.took("mut")
        return self.node("unary", start, operator=operator, of=self.unary(struct))

    def postfix(self, struct):
        start = self.here()
        of = self.primary(struct)
        while True:
            if self.took("."):
                name = self.take()
                if self.word() == "(":
                    of = self.node("method", start, of=of, name=name, **self.inside())
                else:
                    of = self.node("field", start, of=of, name=name)
            elif self.word() == "(":
                of = self.node("call", start, of=of, **self.inside())
            elif self.took("["):
                index = self.expression()
                self.take("]")
                of = self.node("index", start, of=of, index=index)
            elif self.took("?"):
                of = self.node("try", start, of=of)
            else:
                return of

    def inside(self):
        """The arguments in the brackets here."""
        arguments = []
        self.take("(")
        while not self.took(")"):
            arguments.append(self.expression())
            self.took(",")
        return {"arguments": arguments}

    def primary(self, struct):
        start, word, kind = self.here(), self.word(), self.kind()
        if kind in ("int", "float", "bytes", "byte") or word in ("true", "false"):
            return self.node("literal", start, token=self.take())
        if kind == "label":
            self.take()
            self.take(":")
            return self.primary(struct)
        if word in ("if", "match", "loop", "while", "for", "return", "break", "continue"):
            return getattr(self, word + "_")(struct)
        if word == "{":
            return self.block()
        if self.took("("):
            return self.paren(start)
        if self.took("["):
            return self.array(start)
        if kind != "name":
            raise ValueError(f"{self.source.path}:{self.source.line(self.tokens[self.at])}: unexpected {word}")
        return self.path(start, struct)

    def paren(self, start):
        """An expression in brackets, or a tuple."""
        values = []
        while not self.took(")"):
            values.append(self.expression())
            if not self.took(",") and len(values) == 1:
                self.take(")")
                return self.node("paren", start, of=values[0])
        return self.node("tuple", start, values=values)

    def path(self, start, struct):
        words = [self.take().text]
        while self.took("::"):
            words.append(self.take().text)
        if self.took("!"):
            # What a macro is given is no expression.
            self.at = self.source.closing(self.at) + 1
            return self.node("macro", start)
        if struct and self.word() == "{":
            return self.struct(start, words)
        return self.node("name", start, path="::".join(words))

    def struct(self, start, words):
        fields = []
        self.take("{")
        while not self.took("}"):
            begin, name = self.here(), self.take()
            value = self.expression() if self.took(":") else None
            fields.append(self.node("value", begin, name=name, of=value))
            self.took(",")
        return self.node("struct", start, path="::".join(words), fields=fields)

    def array(self, start):
        values, count = [], None
        while not self.took("]"):
            values.append(self.expression())
            if self.took(";"):
                count = self.expression()
            self.took(",")
        return self.node("array", start, values=values, count=count)

    # ---- expressions that begin with a word of the language

    def if_(self, _):
        start = self.take("if").start
        pattern = None
        if self.took("let"):
            pattern = self.pattern({"="})
            self.take("=")
        condition = self.expression(False)
        then, other = self.block(), None
        if self.took("else"):
            other = self.if_(True) if self.word() == "if" else self.block()
        return self.node("if", start, pattern=pattern, condition=condition, then=then, other=other)

    def match_(self, _):
        start = self.take("match").start
        of, arms = self.expression(False), []
        self.take("{")
        while not self.took("}"):
            pattern = self.pattern({"=>"})
            self.take("=>")
            arms.append(Arm(pattern, self.statement()))
            self.took(",")
        return self.node("match", start, of=of, arms=arms)

    def loop_(self, _):
        start = self.take("loop").start
        return self.node("loop", start, body=self.block())

    def while_(self, _):
        start = self.take("while").start
        condition = self.expression(False)
        return self.node("while", start, condition=condition, body=self.block())

    def for_(self, _):
        start = self.take("for").start
        pattern = self.pattern({"in"})
        self.take("in")
        over = self.expression(False)
        return self.node("for", start, pattern=pattern, over=over, body=self.block())

    def left(self, kind, struct):
        """What `return` or `break` hands out, if anything."""
        start = self.take(kind).start
        if self.kind() == "label":
            self.take()
        none = self.word() in (";", "}", ",", ")")
        return self.node(kind, start, of=None if none else self.expression(struct))

    def return_(self, struct):
        return self.left("return", struct)

    def break_(self, struct):
        return self.left("break", struct)

    def continue_(self, struct):
        return self.left("continue", struct)
