"""Where the functions of a Rattle source are. It must be laid out as `rt fmt` does."""

import re

HEAD = re.compile(r"""(?P<indent> *)(?P<kind>(?:pub(?:\([a-z]+\))? |const |unsafe |extern "C" )*)(?:fn (?P<name>\w+)|impl|trait)\b""")


class Function:
    """A function with a body."""

    def __init__(self, lines, first, found, body, holder):
        self.name, self.holder = found["name"], holder
        start = first
        while start and lines[start - 1].strip().startswith(("#", "//")):
            start -= 1
        self.lines = start + 1, body[1] + 1
        # The line and the column after the first brace, and the line of the last one.
        self.opens, self.closes = (body[0] + 1, len(lines[body[0]])), (body[1] + 1, 0)
        # Others' proofs may read the body of a constant function, of a trait's default, or of one in a cycle.
        head = "".join(it for it in lines[start:first] if not it.strip().startswith("//"))
        is_read = re.search(r"\bcycle\b", head) or "const" in found["kind"] or re.match(r"[^<]*\btrait\b", holder)
        self.is_plain = not is_read

    def is_proved_in(self, module, file):
        """Whether the function's proof is this module of proofs/. `file` is the function's."""
        # A function that calls itself has a plus before its name.
        is_named = module[-1:] in ([self.name], [f"+{self.name}"])
        is_here = len(module) > 1 and self.is_owned_by(module[-2]) if self.holder else module[:-1] == module_of(file)
        return is_named and is_here

    def is_owned_by(self, name):
        """Whether proofs name the function's type so: by it, then the trait and its arguments; or by it, then its arguments."""
        words, (name, *arguments) = without_types(self.holder.partition("where")[0]), name.split("+")
        names = [it.strip().split("::")[-1].strip("&' ") for it in re.split(r"\bimpl\b|\bfor\b", words) if it.strip()]
        is_own = name == names[-1] or len(names) > 1 and name.startswith(names[-1] + names[0])
        return is_own and all(re.search(rf"\b{it}\b", self.holder) for it in arguments)


def module_of(file):
    """The path of the module that a source file is."""
    path = file.removeprefix("src/").removesuffix(".rt").split("/")
    return path if path not in (["lib"], ["main"]) else []


def without_types(text):
    """The text without what is in angle brackets."""
    text = text.replace("->", "")
    while re.search(r"<[^<>]*>", text):
        text = re.sub(r"<[^<>]*>", "", text)
    return text


def body_of(lines, first, indent):
    """The first and the last line of the body of a function that begins in a line, or None if it has none. They have its
    indent, as only the ends of the lists of its head have too."""
    for head in range(first, len(lines)):
        # Without a body a function ends with its last clause, which is one step deeper.
        if re.match(indent + r"(?: {4})?\S.*;$", lines[head]):
            return None
        if re.match(indent + r"(?! ).*[{}]$", lines[head]):
            end = lines[head:].index(indent + "}") if indent + "}" in lines[head:] else 0
            return head, head if lines[head].endswith("}") else head + end
    return None


def functions_of(text):
    """The functions with bodies, in the order in which they begin."""
    lines, found, holder = text.split("\n"), [], ""
    for first, line in enumerate(lines):
        it = HEAD.match(line)
        if line == "}":
            holder = ""
        elif it and not it["name"] and not it["indent"]:
            head = next((at for at in range(first, len(lines)) if lines[at].endswith("{")), first)
            holder = " ".join(lines[first : head + 1]).rstrip(" {")
        elif it and it["name"] and (body := body_of(lines, first, it["indent"])):
            found.append(Function(lines, first, it, body, holder))
    return found
