"""The functions of source files, by the kit's own lexer: where each is, and how the prover names it."""
import re
import subprocess
import tempfile
from dataclasses import dataclass
from pathlib import Path

from shared import kit_folder

ITEMS = ("impl", "trait", "mod", "fn")


@dataclass(frozen=True)
class Function:
    """A function of a source file: its module, the type and trait of its impl, where its attributes, its `fn` and its
    body begin, and whether it is neither public nor a trait's."""

    module: tuple
    owner: tuple
    name: str
    attributes: int
    start: int
    body: int
    end: int
    is_private: bool

    @property
    def key(self):
        return self.module, self.owner, self.name

    @property
    def owner_name(self):
        """The prover's name of the impl or trait that holds the function: for an impl of a trait the type, the trait
        and the trait's arguments in a row."""
        words = self.owner if len(self.owner) == 1 else [word[:1].upper() + word[1:] for word in self.owner]
        return "".join(words)

    @property
    def path(self):
        """A path by which the prover finds the function: for a method or an impl the owner's name and its own; for any
        other function its module and its name."""
        return "::".join([*([self.owner_name] if self.owner else self.module), self.name])

    def place(self, modules):
        """The parts of the prover's whole path, given the modules of the crate's types: the prover names a method by
        the module of its type, wherever the impl is."""
        module = modules.get(self.owner[0], self.module) if len(self.owner) == 1 else self.module
        return (*module, *([self.owner_name] if self.owner else []), self.name)

    def is_named(self, path):
        """Whether the prover's path of a function, without its crate, may be this one's or that of a closure in it."""
        if len(self.owner) == 1 and path[-2:] == (*self.owner, self.name):
            return True
        depth = len(self.module)
        if path[:depth] != self.module:
            return False
        if path[depth : depth + 1] == ("fn",):
            return self.name in path[depth + 1 : -1]
        if path[-1] != self.name:
            return False
        between = path[depth:-1]
        if not self.owner:
            return not between
        # (the prover names an impl of a trait by its type, the trait and the trait's arguments)
        name = between[0].lower() if len(between) == 1 else ""
        first, *rest = (word.lower() for word in self.owner)
        return name.startswith(first) and all(word in name for word in rest) and (name == first or bool(rest))


@dataclass
class Block:
    """An item with a body, or any other block in braces: its kind, where it is, and its name once that is read."""

    kind: str
    attributes: int
    start: int
    after: int
    is_public: bool
    name: str = ""
    body: int = 0


def tokens_of(texts):
    """Returns the tokens of each text by its path, as start, end and kind."""
    with tempfile.TemporaryDirectory(prefix="edits-") as room:
        files = [Path(room, f"{number}.rt") for number in range(len(texts))]
        for file, text in zip(files, texts.values()):
            file.write_bytes(text)
        ran = subprocess.run([kit_folder() / "bin/rattle", "fmt", "--tokens", *files], capture_output=True)
    lists = re.split(rb"(?m)^file \d+\n", ran.stdout)[1:]
    if ran.returncode or len(lists) != len(texts):
        raise ValueError(ran.stderr.decode(errors="replace").strip() or "the kit's lexer cannot read this text")
    row = re.compile(rb"(?m)^\d+ (\d+) (\d+) (\w+)")
    return {path: [(int(at[1]), int(at[2]), at[3]) for at in row.finditer(rows)] for path, rows in zip(texts, lists)}


def module_of(path):
    """Returns the module that a source file holds."""
    module = tuple(Path(path).with_suffix("").parts[1:])
    return () if module in (("lib",), ("main",)) else module


def last_words(text):
    """Returns the last part of each path that the text names, without lifetimes."""
    return tuple(path.split("::")[-1] for path in re.findall(r"[A-Za-z_][\w:]*", re.sub(r"'\w+", "", text)))


def owner_of(head):
    """Returns the type of an impl, its trait and the trait's arguments, from the words between `impl` and `{`."""
    head = re.sub(r"\bwhere\b.*", "", head)
    if head.startswith("<"):
        depth = 0
        for at, mark in enumerate(head):
            depth += (mark == "<") - (mark == ">")
            if not depth:
                head = head[at + 1 :]
                break
    trait, _, target = head.rpartition(" for ")
    # (the prover names a reference to a slice of A as RefSliceA)
    marks = re.match(r"(?:&|\[|'\w+|\s)*", target)[0]
    prefix = "Ref" * marks.count("&") + "Slice" * marks.count("[")
    name, *_ = last_words(target)
    return (prefix + name, *last_words(trait))


def function_of(block, around, module, text, end):
    """Returns the function whose block ends here, given the blocks around it."""
    owners = [it for it in around if it.kind in ("impl", "trait")]
    owner = ()
    if owners:
        is_impl = owners[0].kind == "impl"
        owner = owner_of(text[owners[0].after : owners[0].body].decode()) if is_impl else (owners[0].name,)
    inner = tuple(it.name for it in around if it.kind == "mod")
    is_private = not block.is_public and len(owner) < 2 and all(it.kind != "trait" for it in around)
    return Function(module + inner, owner, block.name, block.attributes, block.start, block.body, end, is_private)


def functions_of(path, text, tokens):
    """Returns the functions with a body of a source file; of nested ones, the outermost."""
    found, blocks, head, depth = [], [], None, 0
    # Where the item begins that is read, and its words so far.
    item, words = 0, []
    for start, end in ((start, end) for start, end, kind in tokens if kind == b"Code"):
        word = text[start:end].decode()
        depth += (word in ("(", "[")) - (word in (")", "]"))
        is_inside = any(it.kind == "fn" for it in blocks)
        if word in ITEMS and not depth and not is_inside and not head:
            is_public = any(a == "pub" and b != "(" for a, b in zip(words, [*words[1:], word]))
            head = Block(word, item, start, end, is_public)
        elif head and not head.name and word.isidentifier():
            head.name = word
        if word == ";" and head and not depth:
            head = None
        elif word == "{":
            blocks.append(head if head and not depth else Block("", start, start, end, False))
            blocks[-1].body = start
            head = head if depth else None
        elif word == "}" and blocks:
            block = blocks.pop()
            if block.kind == "fn":
                found.append(function_of(block, blocks, module_of(path), text, end))
        item, words = (end, []) if word in (";", "{", "}") and not depth else (item, [*words, word])
    return found


def modules_of_types(texts, tokens):
    """Returns the module of each type and trait that source files declare."""
    found = {}
    for path, text in texts.items():
        words = [text[start:end].decode() for start, end, kind in tokens[path] if kind == b"Code"]
        for word, name in zip(words, words[1:]):
            if word in ("struct", "enum", "union", "trait"):
                found.setdefault(name, module_of(path))
    return found


def stated_text(path, text, tokens):
    """Returns what crates above see of a source file: its tokens except those of private functions and of bodies."""
    functions = functions_of(path, text, tokens)
    unseen = [(it.attributes - 1 if it.is_private else it.body, it.end) for it in functions]
    return b" ".join(text[start:end] for start, end, _ in tokens if not any(a < start < b for a, b in unseen))


def sources_in(folder):
    """Returns the source files of a crate by their paths in it."""
    return {str(it.relative_to(folder)): it.read_bytes() for it in sorted(Path(folder, "src").rglob("*.rt"))}
