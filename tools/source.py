"""What the tools read: the crates of crates.txt, and the words and the items of a source file."""
import re
from collections import namedtuple
from pathlib import Path

ROOT = Path(__file__).resolve().parent.parent

Token = namedtuple("Token", "kind text start end")
Parameter = namedtuple("Parameter", "name type")
# `name` is None where a clause has none.
Clause = namedtuple("Clause", "name text")
# `body` has the indexes of the tokens that open and close it, or is None; `foreign` says that C can call it.
Function = namedtuple("Function", "name owner public foreign parameters returns requires ensures line body")
# `names` has what is brought by its own name, `alias` the name of the whole module.
Ghost = namedtuple("Ghost", "module names alias")

WORDS = re.compile(
    r"""(?P<skip>\s+|//[^\n]*)
    |(?P<bytes>b?"(?:\\.|[^"\\])*")
    |(?P<byte>b'(?:\\x[0-9a-fA-F]{2}|\\.|[^'\\])')
    |(?P<label>'[A-Za-z_]\w*)
    |(?P<float>\d[\d_]*\.\d[\d_]*(?:[eE][+-]?\d+)?(?:f32|f64)?)
    |(?P<int>(?:0x[0-9a-fA-F_]+|0b[01_]+|\d[\d_]*)(?:[iu](?:8|16|32|64|size))?)
    |(?P<name>[A-Za-z_]\w*)
    |(?P<mark>\.\.=|<<=|>>=|->|=>|::|\.\.|==|!=|<=|>=|&&|\|\||<<|>>|[-+*/%&|^]=|.)""",
    re.X | re.S | re.A,
)
NUMBER = re.compile(r"\d+")
PAIRS = {"(": ")", "[": "]", "{": "}"}
CLAUSES = ("requires", "ensures")


def tokens_of(text):
    """The words of a text, without spaces and comments."""
    tokens, at = [], 0
    while at < len(text):
        field = tokens and tokens[-1].text == "." and NUMBER.match(text, at)
        found = field or WORDS.match(text, at)
        kind = "int" if field else found.lastgroup
        if kind != "skip":
            tokens.append(Token(kind, found.group(), at, found.end()))
        at = found.end()
    return tokens


def plain(text):
    """A text on one line."""
    return " ".join(text.split())


def crates():
    """The crates in the order of crates.txt, each with what it depends on. What else stands before the colon is left out."""
    listed = {}
    for line in (ROOT / "crates.txt").read_text().splitlines():
        named, colon, deps = line.partition("#")[0].partition(":")
        if colon:
            listed[named.split()[0]] = deps.split()
    return listed


def reached(crate, listed):
    """The crate and all crates of the repository that it depends on, itself first."""
    found, todo = [], [crate]
    while todo:
        name = todo.pop(0)
        if name in listed and name not in found:
            found.append(name)
            todo += listed[name]
    return found


def folder_of(crate):
    return ROOT / "crates" / crate


def root_file(crate):
    """The file in which a crate begins: src/lib.rt, or src/main.rt of a program."""
    for name in ("lib.rt", "main.rt"):
        if (folder_of(crate) / "src" / name).is_file():
            return folder_of(crate) / "src" / name
    return None


class Source:
    """A source file: its words, and the items that are declared in it."""

    def __init__(self, path):
        self.path = path
        self.text = path.read_text()
        self.tokens = tokens_of(self.text)
        self.functions, self.ghosts, self.uses, self.modules = [], [], [], []
        self.structs, self.variants, self.consts = {}, {}, {}
        # the ghost members of the `impl` of a trait that is read
        self.members = None
        self.at = 0
        self.items(len(self.tokens), None)

    # ---- the cursor

    def word(self, ahead=0):
        at = self.at + ahead
        return self.tokens[at].text if at < len(self.tokens) else ""

    def take(self, text=None):
        token = self.tokens[self.at]
        if text is not None and token.text != text:
            raise ValueError(f"{self.path}:{self.line(token)}: expected {text}, found {token.text}")
        self.at += 1
        return token

    def line(self, token):
        return self.text.count("\n", 0, token.start) + 1

    def closing(self, at):
        """The index of the token that closes what the one at `at` opens."""
        opening, depth = self.tokens[at].text, 0
        for i in range(at, len(self.tokens)):
            word = self.tokens[i].text
            depth += (word == opening) - (word == PAIRS[opening])
            if depth == 0:
                return i
        raise ValueError(f"{self.path}:{self.line(self.tokens[at])}: {opening} is not closed")

    def past(self, text):
        """Goes past the next `text` that stands in no brackets; the text before it."""
        start = self.tokens[self.at].start
        while self.word() != text:
            self.at = self.closing(self.at) + 1 if self.word() in PAIRS else self.at + 1
        return self.text[start:self.take().start]

    def parts(self):
        """What stands in the brackets that begin here, apart by commas, each as its tokens; goes past them."""
        end, part, found = self.closing(self.at), [], []
        self.at += 1
        while self.at < end:
            if self.word() == ",":
                found, part = found + [part], []
                self.at += 1
                continue
            last = self.closing(self.at) if self.word() in PAIRS else self.at
            part += self.tokens[self.at:last + 1]
            self.at = last + 1
        self.at = end + 1
        return [p for p in found + [part] if p]

    def spelled(self, tokens):
        return plain(self.text[tokens[0].start:tokens[-1].end]) if tokens else ""

    # ---- items

    def items(self, end, owner):
        while self.at < end:
            public = self.word() == "pub"
            if public:
                self.take()
                if self.word() == "(":
                    self.at = self.closing(self.at) + 1
            self.item(public, owner)

    def item(self, public, owner, foreign=False):
        word = self.take().text
        if word == "#":
            if self.word() == "!":
                self.take()
            self.at = self.closing(self.at) + 1
        elif word == "ghost" and self.word() == "use":
            self.take()
            self.ghosts.append(ghost_of(self.past(";")))
        elif word == "ghost":
            self.member()
        elif word == "use":
            self.uses += [(public, path) for path in paths_of(self.past(";"))]
        elif word == "mod":
            self.modules.append((public, self.past(";").strip()))
        elif word in ("const", "static"):
            name = self.past(":").strip()
            self.consts[name] = plain(self.past("="))
            self.past(";")
        elif word == "type":
            self.past(";")
        elif word == "struct":
            self.struct()
        elif word == "enum":
            self.enum()
        elif word == "impl":
            name = plain(self.text[self.tokens[self.at].start:self.tokens[self.open_brace()].start])
            _, of_trait, name = name.rpartition(" for ")
            self.members = {} if of_trait else None
            self.take("{")
            self.items(self.closing(self.at - 1), name)
            self.take("}")
            self.members = None
        elif word == "fn":
            self.function(public, owner, foreign)
        elif word == "extern":
            self.take()
            self.item(public, owner, True)
        else:
            raise ValueError(f"{self.path}:{self.line(self.tokens[self.at - 1])}: unknown item {word}")

    def member(self):
        """A ghost member of an `impl` of a trait: what a method `f` answers is its member `f_gives`."""
        name = self.past("=").strip()
        end = self.closing(self.at)
        self.members[name] = plain(self.text[self.tokens[self.at].end:self.tokens[end].start])
        self.past(";")

    def open_brace(self):
        while self.word() != "{":
            self.at += 1
        return self.at

    def struct(self):
        name = self.take().text
        self.structs[name] = self.fields()
        if self.word() == ";":
            self.take()

    def fields(self):
        """The fields that stand in the brackets here, with their types: by name, or by place."""
        if self.word() not in PAIRS:
            return []
        named, found = self.word() == "{", []
        for place, part in enumerate(self.parts()):
            words = [t for t in part if t.text != "pub"]
            if named:
                found.append((words[0].text, self.spelled(words[2:])))
            else:
                found.append((str(place), self.spelled(words)))
        return found

    def enum(self):
        name = self.take().text
        end = self.closing(self.at)
        self.take("{")
        while self.at < end:
            variant = self.take().text
            self.variants[name + "::" + variant] = self.fields()
            while self.at < end and self.take().text != ",":
                pass
        self.at = end + 1

    def function(self, public, owner, foreign):
        token = self.take()
        if self.word() == "<":
            self.past(">")
        parameters = [self.parameter(part, owner) for part in self.parts()]
        returns, clauses = "", {clause: [] for clause in CLAUSES}
        if self.word() == "->":
            self.take()
            start = self.tokens[self.at].start
            while self.word() not in CLAUSES and self.word() not in ("{", ";"):
                self.at = self.closing(self.at) + 1 if self.word() in PAIRS else self.at + 1
            returns = plain(self.text[start:self.tokens[self.at].start])
        while self.word() in CLAUSES:
            clause = self.take().text
            name = None if self.word() == "{" else self.take().text
            end = self.closing(self.at)
            clauses[clause].append(Clause(name, plain(self.text[self.tokens[self.at].end:self.tokens[end].start])))
            self.at = end + 1
        body = None
        if self.word() == "{":
            body = (self.at, self.closing(self.at))
            self.at = body[1]
        self.take()
        asked = clauses["requires"], clauses["ensures"]
        if self.members is not None:
            public, gives = True, f"{token.text}_gives"
            asked[1].extend(Clause(gives, self.members[gives]) for _ in range(gives in self.members))
        one = Function(token.text, owner, public, foreign, parameters, returns, *asked, self.line(token), body)
        self.functions.append(one)

    def parameter(self, part, owner):
        words = [t for t in part if t.text != "mut" or t is not part[0]]
        if words[-1].text == "self":
            return Parameter("self", owner)
        return Parameter(words[0].text, self.spelled(words[2:]))


def paths_of(text):
    """The paths that a line `use` brings, one for each name."""
    path, brace, names = plain(text).partition("::{")
    if not brace:
        return [path]
    names = [name.strip() for name in names.rstrip(" }").split(",")]
    return [path if name == "self" else f"{path}::{name}" for name in names if name]


def ghost_of(text):
    """What a line `ghost use` brings."""
    text = plain(text)
    module, brace, names = text.partition(".{")
    if brace:
        return Ghost(module, [n.split(" as ")[-1].strip() for n in names.rstrip("}").split(",")], None)
    module, _, alias = text.partition(" as ")
    return Ghost(module, [], alias or module.rsplit(".", 1)[-1])


def sources(crate):
    """The source files of a crate, the root first."""
    root = root_file(crate)
    others = sorted(p for p in (folder_of(crate) / "src").rglob("*.rt") if p != root)
    return [Source(p) for p in [root, *others]]


def called(function):
    """A function's name, with the type that it is a method of."""
    return f"{function.owner}::{function.name}" if function.owner else function.name
