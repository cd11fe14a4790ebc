"""The functions of a Rattle source file, by their places in its text."""

import re
from dataclasses import dataclass
from functools import lru_cache

# A clause of a contract stands between a function's signature and its body.
CLAUSE = re.compile(r"\b(requires|ensures|ghost)\b")
COMMENT_OR_TEXT = re.compile(
    r"""//[^\n]*|/\*.*?\*/|b?r(\#*)".*?"\1|b?"(?:\\.|[^"\\])*"|b?'(?:\\[^\n]+?|[^\\'\n])'""", re.S
)
WORD = re.compile(r"[A-Za-z_][A-Za-z0-9_]*")


@dataclass(frozen=True)
class Function:
    """A function of a file. `owner` is the type of the `impl` or the trait that it stands in, or empty;
    `trait` is the trait that the `impl` is of, or empty."""

    file: str
    owner: str
    trait: str
    name: str

    def label(self):
        owner = f"{self.owner}::" if self.owner else ""
        return f"{self.module()}::{owner}{self.name}" if self.module() else f"{owner}{self.name}"

    def module(self):
        path = self.file.removeprefix("src/").removesuffix(".rt").removesuffix("/mod")
        return "" if path in ("lib", "main") else path.replace("/", "::")


@dataclass(frozen=True)
class Place:
    """A function, from its `fn` to the end of its body, which begins at `body`."""

    function: Function
    start: int
    body: int
    end: int


@lru_cache(maxsize=4096)
def blanked(text):
    """Returns the text with spaces in place of comments and literals, each character at its place."""
    return COMMENT_OR_TEXT.sub(lambda found: re.sub(r"[^\n]", " ", found[0]), text)


def closing(text, at):
    """Returns the place after the bracket that closes the one at this place."""
    depth = 0
    for i in range(at, len(text)):
        depth += (text[i] == "{") - (text[i] == "}")
        if depth == 0:
            return i + 1
    return len(text)


def without_parameters(text):
    """Returns the text without what stands between angle brackets."""
    found, depth = [], 0
    for i, c in enumerate(text):
        if c == "<":
            depth += 1
        elif c == ">" and text[i - 1] not in "-=":
            depth -= 1
        elif depth == 0:
            found.append(c)
    return "".join(found)


def last_word(path):
    words = WORD.findall(path)
    return words[-1] if words else ""


def body_of(text, at):
    """Returns where the body of the function whose `fn` stands at this place begins and ends, or None."""
    while True:
        opening = re.compile(r"[{;]").search(text, at)
        if not opening:
            return None
        # (an array's length in a signature, as [u8; 64], ends no function)
        before = text[at : opening.start()]
        if opening[0] == ";":
            if before.count("[") > before.count("]"):
                at = opening.end()
                continue
            return None
        end = closing(text, opening.start())
        if not CLAUSE.search(before):
            return opening.start(), end
        at = end


def owners(text):
    """Returns each `impl` and `trait` of the text: where it begins and ends, its type and its trait."""
    found = []
    for head in re.finditer(r"(?m)^[ \t]*(?:pub(?:\([^)]*\))? )?(?:unsafe )?(impl|trait)\b([^{;]*)\{", text):
        end = closing(text, head.end() - 1)
        words = re.split(r"\bwhere\b", without_parameters(head[2]))[0]
        first, _, second = words.partition(" for ")
        owner = last_word(re.split(r":", second or first, maxsplit=1)[0] if head[1] == "trait" else second or first)
        found.append((head.start(), end, owner, last_word(first) if second else ""))
    return found


def with_attributes(text, place):
    """Returns where a function begins, from the attributes above it on."""
    start = text.rfind("\n", 0, place.start) + 1
    while start and re.match(r"\s*#\[", text[text.rfind("\n", 0, start - 1) + 1 : start]):
        start = text.rfind("\n", 0, start - 1) + 1
    return start


@lru_cache(maxsize=4096)
def functions_of(file, text):
    """Returns the places of the file's functions, which nobody changes."""
    text = blanked(text)
    around = owners(text)
    found = []
    for head in re.finditer(r"\bfn\s+([A-Za-z_][A-Za-z0-9_]*)", text):
        body = body_of(text, head.end())
        if body is None:
            continue
        owner, trait = next(((o, t) for start, end, o, t in around if start < head.start() < end), ("", ""))
        found.append(Place(Function(file, owner, trait, head[1]), head.start(), *body))
    return found


def is_of(function, crate, printed):
    """Returns whether a name that rattle prints is that of a function, or of a closure in it."""
    path = printed.removeprefix(f"{crate}::").split("::")
    # (u32 is U32 in the name of an impl)
    owner = f"{function.owner[:1].upper()}{function.owner[1:]}{function.trait}"
    if "fn" in path:
        path = path[path.index("fn") + 1 :]
        if not function.owner:
            return path[0] == function.name and printed.startswith(f"{crate}::{function.module()}")
        return path[0].startswith(owner) and path[1:2] == [function.name]
    if path[-1] != function.name:
        return False
    if not function.owner:
        return "::".join(path[:-1]) == function.module()
    return len(path) > 1 and (path[-2].startswith(owner) if function.trait else path[-2] == owner)


def path_of(function, sources):
    """Returns the path of a function that is no method of a trait, below the crate."""
    owner = [module_of(function.owner, sources), function.owner] if function.owner else [function.module()]
    return "::".join(it for it in (*owner, function.name) if it)


def module_of(owner, sources):
    """Returns the module that declares a type."""
    for file, text in sources.items():
        if re.search(rf"\b(struct|enum)\s+{owner}\b", text):
            return file.removeprefix("src/").removesuffix(".rt").removesuffix("/mod").replace("/", "::")
    return ""
