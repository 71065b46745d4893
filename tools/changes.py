"""The single changes of a crate's functions, which tools/mutate tries."""
import re
from collections import namedtuple
from decimal import Decimal

from source import called, plain, reached, sources, folder_of
from tree import COMPARING, WITH_BLOCK, Tree, walk

# `edits` has places in the file, each with the text that is put there; `other` has another way to the same meaning, or
# nothing.
Change = namedtuple("Change", "path place function kind old new edits other")

ONE_SIDED = {"-", "/", "%", "<<", ">>", "<", "<=", ">", ">="}
COMPARISONS = {"<": "<=", "<=": "<", ">": ">=", ">=": ">", "==": "!=", "!=": "=="}
OPERATORS = {
    "+": "-", "-": "+", "*": "/", "/": "*", "%": "/", "<<": ">>", ">>": "<<",
    "&&": "||", "||": "&&", "&": "|", "|": "&",
    "+=": "-=", "-=": "+=", "*=": "/=", "/=": "*=",
}
# By these names two operands are the same in either order.
EITHER_ORDER = re.compile(r"(wrapping_)?(add|mul)(_u(8|16|32|64|size))?")
TIGHT = {"name", "literal", "call", "method", "field", "index", "paren", "array"}
BOUND = re.compile(r"([\w:]+)\s*[({](.*)[)}]", re.S)


def bare(type_):
    """A type without the references before it."""
    return re.sub(r"^(&|'\w+|mut\b|\s)+", "", type_ or "") or None


class Known:
    """What a crate can name: functions, structs, cases of enums and constants, with their types."""

    def __init__(self, crate, listed):
        self.crates = reached(crate, listed)
        self.functions, self.structs, self.variants, self.consts = {}, {}, {}, {}
        for name in self.crates:
            for source in sources(name):
                for function in source.functions:
                    if function.public or name == crate:
                        self.functions.setdefault(called(function), []).append((name, function))
                for kind in ("structs", "variants", "consts"):
                    # The nearest crate's come first.
                    setattr(self, kind, {**getattr(source, kind), **getattr(self, kind)})

    def callee(self, path, uses):
        """The types of what is called is given and answers; None where that is not known."""
        parts = path.split("::")
        pair, last = "::".join(parts[-2:]), parts[-1]
        if pair in self.variants:
            return [t for _, t in self.variants[pair]], parts[-2]
        if last in self.structs:
            return [t for _, t in self.structs[last]], last
        brought = [use.split("::")[0] for _, use in uses if use.split("::")[-1] == parts[0]]
        found = self.functions.get(pair) or self.functions.get(last) or []
        nearest = [f for crate, f in found if crate in brought or crate == parts[0]]
        for function in nearest or [f for _, f in found]:
            return [p.type for p in function.parameters], function.returns
        return None, None

    def fields(self, type_, name):
        """The structs, as their fields, that a field of this name can be of."""
        if type_ in self.structs:
            return [self.structs[type_]]
        return [fields for fields in self.structs.values() if name in dict(fields)]


class Types:
    """The types of a function's expressions, as far as they are seen without proof."""

    def __init__(self, known, source, function, root):
        self.known, self.source = known, source
        self.names = {p.name: p.type for p in function.parameters}
        for node in walk(root):
            if node.kind == "let":
                self.bind(node.parts["pattern"], node.parts["type"] or self.of(node.parts["value"]))
            elif node.kind == "for":
                self.bind(node.parts["pattern"], self.of(node.parts["over"]))
            elif node.kind == "if" and node.parts["pattern"]:
                self.bind(node.parts["pattern"], None)
            elif node.kind == "match":
                for arm in node.parts["arms"]:
                    self.bind(arm.pattern, None)

    def bind(self, pattern, type_):
        text = self.source.text[pattern.start:pattern.end].replace("mut ", "").strip()
        inside = BOUND.fullmatch(text)
        if not inside:
            self.names.setdefault(text, type_)
            return
        pair = "::".join(inside[1].split("::")[-2:])
        fields = self.known.variants.get(pair) or self.known.structs.get(inside[1]) or []
        for place, part in enumerate(inside[2].split(",")):
            name = part.strip()
            by_name = dict(fields).get(name)
            self.names.setdefault(name, by_name or (fields[place][1] if place < len(fields) else None))

    def of(self, node):
        """The type of an expression, or None."""
        if node is None:
            return None
        look = getattr(self, "of_" + node.kind, None)
        return look(node.parts) if look else None

    def of_name(self, parts):
        return self.names.get(parts["path"]) or self.known.consts.get(parts["path"].split("::")[-1])

    def of_paren(self, parts):
        return self.of(parts["of"])

    def of_unary(self, parts):
        return bare(self.of(parts["of"]))

    def of_cast(self, parts):
        return parts["type"]

    def of_struct(self, parts):
        return parts["path"].split("::")[-1]

    def of_binary(self, parts):
        if parts["operator"].text in COMPARING | {"&&", "||"}:
            return "bool"
        return self.of(parts["left"]) or self.of(parts["right"])

    def of_range(self, parts):
        return self.of(parts["left"]) or self.of(parts["right"])

    def of_literal(self, parts):
        suffix = re.search(r"[iu](8|16|32|64|size)$", parts["token"].text)
        return suffix.group() if suffix and parts["token"].kind == "int" else None

    def of_index(self, parts):
        within = re.match(r"\[(.*?)(;.*)?\]$", bare(self.of(parts["of"])) or "")
        return within[1] if within else None

    def of_field(self, parts):
        fields = self.known.structs.get(bare(self.of(parts["of"])), [])
        return dict(fields).get(parts["name"].text)

    def of_call(self, parts):
        if parts["of"].kind != "name":
            return None
        return self.known.callee(parts["of"].parts["path"], self.source.uses)[1]

    def of_method(self, parts):
        return self.method(parts)[1]

    def method(self, parts):
        type_ = bare(self.of(parts["of"]))
        return self.known.callee(f"{type_}::{parts['name'].text}", self.source.uses) if type_ else (None, None)


class Changes:
    """The changes of one function, in the order of the text."""

    def __init__(self, known, crate, source, function):
        self.known, self.source, self.function = known, source, function
        self.path = source.path.relative_to(folder_of(crate))
        self.root = Tree(source, function).root
        self.types = Types(known, source, function, self.root)
        self.same_type = {}
        for p in function.parameters:
            self.same_type[p.name] = [q.name for q in function.parameters if q.type == p.type and q.name != p.name]
        nodes = list(walk(self.root))
        # A function's name is no variable, and an `else if` can't be left out by itself.
        self.callees = {n.start for n in nodes if n.kind == "call"}
        self.else_ifs = {n.parts["other"].start for n in nodes if n.kind == "if" and n.parts["other"]}
        self.found = []
        for node in nodes:
            change = getattr(self, "of_" + node.kind, None)
            if change:
                change(node, node.parts)

    def text(self, node):
        return self.source.text[node.start:node.end]

    def held(self, node):
        """The text of a node as one side of an operator."""
        return self.text(node) if node.kind in TIGHT else f"({self.text(node)})"

    def add(self, kind, at, old, new, *edits, other=()):
        before = self.source.text[:at]
        place = f"{self.path}:{before.count(chr(10)) + 1}:{at - before.rfind(chr(10))}"
        one = Change(self.path, place, called(self.function), kind, plain(old), plain(new), edits, other)
        if all(one.edits != other.edits for other in self.found):
            self.found.append(one)

    def replace(self, kind, node, new):
        self.add(kind, node.start, self.text(node), new, (node.start, node.end, new))

    # ---- an operand

    def exchange(self, name, operands, types):
        """Two arguments of a call in each other's place, where their types may be the same."""
        if len(operands) == 2 and EITHER_ORDER.fullmatch(name.split("::")[-1]):
            return
        for i, one in enumerate(operands):
            for j in range(i + 1, len(operands)):
                other = operands[j]
                known = types is not None and len(types) == len(operands)
                kinds = (types[i], types[j]) if known else (self.types.of(one), self.types.of(other))
                if self.text(one) == self.text(other) or (None not in kinds and kinds[0] != kinds[1]):
                    continue
                first, second = self.text(one), self.text(other)
                edits = (one.start, one.end, second), (other.start, other.end, first)
                self.add("operand", one.start, f"{name}({first}, {second})", f"{name}({second}, {first})", *edits)

    def of_call(self, node, parts):
        if parts["of"].kind == "name":
            path = parts["of"].parts["path"]
            self.exchange(path, parts["arguments"], self.known.callee(path, self.source.uses)[0])

    def of_method(self, node, parts):
        name, arguments = parts["name"].text, parts["arguments"]
        types = self.types.method(parts)[0]
        self.exchange(name, arguments, types[1:] if types else None)
        if types is None or len(types) != len(arguments) + 1 or EITHER_ORDER.fullmatch(name):
            return
        for i, argument in enumerate(arguments):
            if types[0] != types[i + 1] or self.text(argument) == self.text(parts["of"]):
                continue
            old, new = self.text(parts["of"]), self.text(argument)
            edits = (parts["of"].start, parts["of"].end, self.held(argument)), (argument.start, argument.end, old)
            self.add("operand", node.start, f"{old}.{name}({new})", f"{self.held(argument)}.{name}({old})", *edits)

    def of_name(self, node, parts):
        if node.start in self.callees:
            return
        for other in self.same_type.get(parts["path"], []):
            self.replace("operand", node, other)
        name = parts["path"].split("::")[-1]
        type_ = self.known.consts.get(name)
        if type_ == "bool":
            self.replace("constant", node, f"(!{parts['path']})")
        elif type_ and re.fullmatch(r"[iuf]\w+", type_):
            self.replace("constant", node, f"({parts['path']} + {'1.0' if type_[0] == 'f' else '1'})")

    def of_value(self, node, parts):
        if parts["of"] is None:
            for other in self.same_type.get(parts["name"].text, []):
                self.replace("operand", node, f"{parts['name'].text}: {other}")

    # ---- an operator and a comparison

    def of_binary(self, node, parts):
        left, right, operator = parts["left"], parts["right"], parts["operator"]
        if operator.text in ONE_SIDED and self.text(left) != self.text(right):
            self.replace("operand", node, f"{self.held(right)} {operator.text} {self.held(left)}")
        for kind, others in (("comparison", COMPARISONS), ("operator", OPERATORS)):
            if operator.text in others:
                self.operate(kind, node, operator, others[operator.text])

    def operate(self, kind, node, operator, new):
        text, at = self.text(node), operator.start - node.start
        changed = text[:at] + new + text[at + len(operator.text):]
        self.add(kind, operator.start, text, changed, (operator.start, operator.end, new))

    def of_assign(self, node, parts):
        if parts["operator"].text in OPERATORS:
            self.operate("operator", node, parts["operator"], OPERATORS[parts["operator"].text])

    def of_range(self, node, parts):
        if parts["right"] is not None:
            self.operate("comparison", node, parts["operator"], "..=" if parts["operator"].text == ".." else "..")

    def of_unary(self, node, parts):
        if parts["operator"].text in "-!":
            self.replace("operator", node, self.text(parts["of"]))

    # ---- a constant

    def of_literal(self, node, parts):
        text, kind = parts["token"].text, parts["token"].kind
        if text in ("true", "false"):
            self.replace("constant", node, "false" if text == "true" else "true")
        elif kind == "int":
            number, suffix = re.fullmatch(r"(0x[0-9a-fA-F_]+|0b[01_]+|[\d_]+)(.*)", text).groups()
            value = int(number.replace("_", ""), 0) + 1
            self.replace("constant", node, f"{value:#x}{suffix}" if number.startswith("0x") else f"{value}{suffix}")
        elif kind == "float":
            number, suffix = re.fullmatch(r"([\d_.eE+-]+?)(f32|f64)?", text).groups()
            value = f"{Decimal(number.replace('_', '')) + 1:f}"
            self.replace("constant", node, (value if "." in value else value + ".0") + (suffix or ""))
        elif re.match(r"b['\"][A-Za-y0-8 ]", text):
            # The first letter of a byte string, or the one of a byte, becomes the next.
            self.replace("constant", node, text[:2] + chr(ord(text[2]) + 1) + text[3:])

    # ---- a field

    def of_field(self, node, parts):
        name = parts["name"]
        others = []
        for fields in self.known.fields(bare(self.types.of(parts["of"])), name.text):
            type_ = dict(fields)[name.text]
            others += [other for other, its in fields if its == type_ and other != name.text and other not in others]
        for other in others:
            of = self.text(parts["of"])
            self.add("field", name.start, f"{of}.{name.text}", f"{of}.{other}", (name.start, name.end, other))

    def of_struct(self, node, parts):
        """The value of a field and that of the next field of its type, in each other's place."""
        pair = "::".join(parts["path"].split("::")[-2:])
        types = dict(self.known.structs.get(pair.split("::")[-1]) or self.known.variants.get(pair) or [])
        values = parts["fields"]
        for i, one in enumerate(values):
            first = one.parts["name"].text
            for other in [v for v in values[i + 1:] if types.get(first) == types.get(v.parts["name"].text)][:1]:
                second = other.parts["name"].text
                texts = [self.text(v.parts["of"]) if v.parts["of"] else v.parts["name"].text for v in (one, other)]
                if texts[0] == texts[1]:
                    continue
                new = f"{first}: {texts[1]}", f"{second}: {texts[0]}"
                edits = (one.start, one.end, new[0]), (other.start, other.end, new[1])
                self.add("field", one.start, f"{first}: {texts[0]}, {second}: {texts[1]}", ", ".join(new), *edits)

    # ---- a branch

    def of_if(self, node, parts):
        """A branch is left out by `false` and exchanged by `!`, so that the parts of the proof keep their names."""
        then, other, pattern, condition = parts["then"], parts["other"], parts["pattern"], parts["condition"]
        head = self.source.text[node.start:then.start].strip()
        if pattern is not None:
            self.of_if_let(node, parts, head)
            return
        at, place = node.start, (condition.start, condition.end)
        if other is None:
            removed = () if at in self.else_ifs else ((node.start, node.end, ""),)
            self.add("branch", at, f"{head} {{..}}", "left out", (*place, "false"), other=removed)
        if other is None or self.text(then) != self.text(other):
            negated = self.text(condition.parts["of"]) if self.is_not(condition) else f"!({self.text(condition)})"
            # The negation of an equality is a change of a comparison.
            if condition.kind != "binary" or condition.parts["operator"].text not in ("==", "!="):
                old = f"{head} {{..}}" if other is None else f"{head} {{..}} else {{..}}"
                new = "done where it is not so" if other is None else "then and else exchanged"
                self.add("branch", at, old, new, (*place, negated))

    def is_not(self, node):
        return node.kind == "unary" and node.parts["operator"].text == "!"

    def of_if_let(self, node, parts, head):
        then, other, names = parts["then"], parts["other"], parts["pattern"].parts["names"]
        if other is None and node.start not in self.else_ifs:
            self.add("branch", node.start, f"{head} {{..}}", "left out", (node.start, node.end, ""))
        elif other is not None and self.text(then) != self.text(other) and not self.mentions(then, names):
            new = self.text(other) if other.kind == "block" else "{ " + self.text(other) + " }"
            edits = (then.start, then.end, new), (other.start, other.end, self.text(then))
            self.add("branch", node.start, f"{head} {{..}} else {{..}}", "then and else exchanged", *edits)

    def mentions(self, node, names):
        return any(n.kind == "name" and n.parts["path"] in names for n in walk(node))

    def of_match(self, node, parts):
        """An arm with the answer of the next one, the last with that of the one before it."""
        arms = parts["arms"]
        for i, arm in enumerate(arms[:len(arms) if len(arms) > 1 else 0]):
            near = arms[i + 1] if i + 1 < len(arms) else arms[i - 1]
            missing = set(near.pattern.parts["names"]) - set(arm.pattern.parts["names"])
            if self.text(near.body) == self.text(arm.body) or self.mentions(near.body, missing):
                continue
            new, pattern = self.text(near.body), self.text(arm.pattern)
            if arm.body.kind in WITH_BLOCK and near.body.kind not in WITH_BLOCK:
                new = "{ " + new + " }"
            old = f"{pattern} => {self.text(arm.body)}"
            self.add("branch", arm.body.start, old, f"{pattern} => {new}", (arm.body.start, arm.body.end, new))

    def of_block(self, node, parts):
        """A `return` after other work, a `break` or a `continue` is left out; a `return` alone goes with its `if`."""
        worked = False
        for statement in parts["statements"]:
            of = statement.parts.get("of")
            if of is not None and node.start != self.root.start:
                if of.kind in ("break", "continue") or (of.kind == "return" and worked):
                    removed = (statement.start, statement.end, "")
                    self.add("branch", statement.start, self.text(statement), "left out", removed)
            worked = worked or statement.kind != "let"


def changes_of(crate, listed):
    """All changes of a crate, in the order of its files."""
    known, found = Known(crate, listed), []
    for source in sources(crate):
        for function in source.functions:
            if function.body is not None:
                found += sorted(Changes(known, crate, source, function).found, key=lambda c: c.edits[0][0])
    return found


def applied(text, edits):
    """A file's text with the edits of a change."""
    for start, end, new in sorted(edits, reverse=True):
        text = text[:start] + new + text[end:]
    return text
