"""The small changes that make a program or a definition another one. A change is its kind, a place in a file's text (from, to), and what stands there then."""

import re

NUMBER = re.compile(r"(?<![\w.«])(0x[0-9a-f_]+|0b[01_]+|[0-9][0-9_]*)(?![\w.])")
STRING = re.compile(r'"([^"\\]+)"')
TRUTH = re.compile(r"\b(true|false)\b")


def other_numbers(text):
    """One more, and one less."""
    value = int(text.replace("_", ""), 0)
    for new in (value + 1, value - 1):
        if new >= 0:
            yield f"{new:#0{len(text)}b}" if text.startswith("0b") else f"{new:#x}" if text.startswith("0x") else str(new)


def next_of(word, group):
    """The one after `word`, the first after the last."""
    return group[(group.index(word) + 1) % len(group)]


def not_of(truth):
    return "false" if truth == "true" else "true"


def exchanged(text, a, b):
    """Two pieces in each other's place: from, to, and the new text."""
    return a[0], b[1], text[b[0] : b[1]] + text[a[1] : b[0]] + text[a[0] : a[1]]


def closing(text, start):
    """Where the bracket at `start` is closed."""
    depth = 0
    for i in range(start, len(text)):
        depth += (text[i] in "([{") - (text[i] in ")]}")
        if depth == 0:
            return i
    return len(text)


def found(kind, pattern, line, new):
    """A change wherever `pattern` is found, by what `new` makes of the match; None is no change."""
    for m in re.finditer(pattern, line):
        text = new(m)
        if text is not None and text != m[0]:
            yield kind, m.start(), m.end(), text


# ---- programs

OPERATORS = {
    "==": "!=", "!=": "==", "<=": "<", "<": "<=", "+": "-", "-": "+", "*": "+", "%": "/", "/": "%", "<<": ">>", ">>": "<<",
}
OPERATOR = r"(?<= )(==|!=|<=|<<|>>|<|\+|-|\*|%|/)(?= )"
VARIANT = re.compile(r"\b(name|Flow|Shift|AddrMode|Status)::([A-Z]\w*)(?![\w(])")
NO_CODE = re.compile(r"\s*(use |ghost |requires|ensures|mod |pub mod |#\[|(pub )?(extern|fn|impl) |\}|$)")
ASSIGNMENT = re.compile(r"\s+(?!let |\s)[\w.\[\] +]+ (=|\+=|-=) .*;$")


def arguments(line, start, end):
    """The places of the arguments between two brackets, without the blanks around them."""
    depth, begin = 0, start
    for i in range(start, end + 1):
        if i == end or (line[i] == "," and depth == 0):
            part = line[begin:i]
            if part.strip():
                yield begin + len(part) - len(part.lstrip()), begin + len(part.rstrip())
            begin = i + 1
        else:
            depth += (line[i] in "([{") - (line[i] in ")]}")


def shape(argument):
    """What an argument looks like: those that look alike may have one type."""
    return re.sub(r"\(.*", "(", re.sub(r"\b[A-Z]\w*|\b0?[xb]?\d\w*", "0", argument)) if not re.fullmatch(r"[a-z_]\w*", argument) else ""


def code_lines(text):
    """The lines that hold code, without comments, each with its place. What a type is made of is none."""
    start, type_ = 0, False
    for line in text.splitlines(keepends=True):
        code = line.split("//")[0].rstrip()
        type_ = type_ or re.match(r"(pub )?(struct|enum|type) ", code)
        if not type_ and not NO_CODE.match(code):
            yield start, code
        if code == "}" or code.endswith(");"):
            type_ = False
        start += len(line)


def in_program(text):
    variants = {}
    for m in VARIANT.finditer(text):
        variants.setdefault(m[1], set()).add(m[2])
    groups = {}
    for m in re.finditer(r"^(?:pub )?const (\w+): (\w+) =", text, re.M):
        groups.setdefault(m[2], []).append(m[1])
    for m in re.finditer(r"^use arm::(RD|RN|RS|RM);", text, re.M):
        groups.setdefault("field", []).append(m[1])
    constants = {word: group for group in groups.values() for word in group}

    for start, line in code_lines(text):
        changes = [
            *found("operator", OPERATOR, line, lambda m: OPERATORS[m[0]]),
            *found("constant", TRUTH, line, lambda m: not_of(m[0])),
            *found("constant", VARIANT, line, lambda m: None if "=>" in line[m.end() :] else f"{m[1]}::{next_of(m[2], sorted(variants[m[1]]))}"),
        ]
        if "const " not in line:
            changes += found("constant", r"(?<!::)\b[A-Z][A-Z_0-9]*\b", line, lambda m: next_of(m[0], constants[m[0]]) if m[0] in constants else None)
        for m in NUMBER.finditer(line):
            if not re.search(r"\[[\w:]+; $", line[: m.start()]):  # the length in an array's type
                changes += (("number", *m.span(), new) for new in other_numbers(m[0]))
        for m in re.finditer(r"\b[a-z_][\w:]*\(", line):
            spans = list(arguments(line, m.end(), closing(line, m.end() - 1)))
            for a, b in zip(spans, spans[1:]):
                one, other = line[slice(*a)], line[slice(*b)]
                if one != other and shape(one) == shape(other):
                    changes.append(("arguments", *exchanged(line, a, b)))
        for m in re.finditer(r"\{ ([^{}]+) \} else \{ ([^{}]+) \}", line):
            changes.append(("branches", *exchanged(line, m.span(1), m.span(2))))
        if ASSIGNMENT.match(line):
            changes.append(("statement", len(line) - len(line.lstrip()), len(line), ""))
        for kind, a, b, new in changes:
            yield kind, start + a, start + b, new


# ---- definitions

def applied(text, at):
    """The places of three arguments from `at` on, each a word or what stands in brackets; or fewer, at a text's end."""
    for _ in range(3):
        m = re.compile(r"\s*([^\s()]+|\()").match(text, at)
        if not m:
            return
        at = closing(text, m.start(1)) + 1 if m[1] == "(" else m.end(1)
        yield m.start(1), at


def other_text(text):
    """A pattern of bits with its last bit another; a name with its last letter or digit another."""
    last = text[-1]
    if re.fullmatch("[01x]+", text):
        return text[:-1] + {"0": "1", "1": "0", "x": "1"}[last]
    new = chr(ord(last) + (-1 if last in "zZ9" else 1))
    return text[:-1] + new if new.isalnum() else None


def in_definition(text):
    used = "".join(re.findall(r"^use .*$", text, re.M))
    variants = {}
    for names in re.findall(r"(?:Name|the-variants)\.\{([^}]*)\}", used):
        group = re.findall(r"\b[A-Z]\w*", names)
        variants.update({word: group for word in group})
    fields = [f for f in ("rd", "rn", "rm", "rs") if re.search(rf"[{{ ]{f}[,}}]", used)]
    # what the blocks that begin with `abbrev` or `unfoldable` say after their type
    for block in re.finditer(r"^ *(?:abbrev|unfoldable) .*\n((?:.+\n)+)", text, re.M):
        for m in re.finditer(r"(?m)^(?!\s*--).+$", block[1]):
            line, start = m[0], block.start(1) + m.start()
            plain = STRING.sub(lambda s: " " * len(s[0]), line)
            changes = [
                *found("text", STRING, line, lambda s: (lambda new: new and f'"{new}"')(other_text(s[1]))),
                *found("constant", r"\b(rd|rn|rm|rs)\b", plain, lambda w: next_of(w[0], fields) if w[0] in fields else None),
                *found("constant", r"(?<!\.)\b[A-Z]\w*\b", plain, lambda w: next_of(w[0], variants[w[0]]) if w[0] in variants and w.start() > plain.find(" = ") else None),
            ]
            if "true" in used and "false" in used:
                changes += found("constant", TRUTH, plain, lambda w: not_of(w[0]))
            if "_+_" in used and "_-_" in used:
                changes += found("operator", r"(?<= )[+-](?= )", plain, lambda w: OPERATORS[w[0]])
            for n in NUMBER.finditer(plain):
                changes += (("number", *n.span(), new) for new in other_numbers(n[0]))
            for kind, a, b, new in changes:
                yield kind, start + a, start + b, new
        for m in re.finditer(r"\bpick ", block[1]):
            spans = list(applied(text, block.start(1) + m.end()))
            if len(spans) == 3 and spans[2][1] <= block.end(1) and text[slice(*spans[1])] != text[slice(*spans[2])]:
                yield ("branches", *exchanged(text, spans[1], spans[2]))


def changes(path, text):
    return in_program(text) if path.endswith(".rt") else in_definition(text)
