"""The functions of Rattle files, edits of their bodies, and the functions that the prover's lines are about. This is
what `tools/wrong-bodies` reads."""
import collections
import pathlib
import re

HEAD = re.compile(r"( *)(?:pub(?:\([^)]*\))? )?((?:const |unsafe |extern \"C\" )*)fn (\w+)")
BLOCK = re.compile(r"(?:pub(?:\([^)]*\))? )?(?:unsafe )?(?:impl|trait)\b")
TYPE = re.compile(r"(?:pub(?:\([^)]*\))? )?(?:struct|enum|trait) (\w+)", re.M)
PLACE = re.compile(r"(?:note: )?(?:\./)?((?:src|specs|proofs)/\S+?):(\d+):\d+: ?(.*)", re.S)
# What the prover calls the goals of a contract: the way that the function takes to its end, and the clause.
GOAL = re.compile(r"`(?:[\w-]*-)?clause-(\w+)`?|`([\w-]+)`?")

# An edit that changes the body of one function and nothing else: the file of the edit, the file that it changes, the
# function there, and its new body.
Body = collections.namedtuple("Body", "edit path function text")


class Function:
    """A function with a body: its name with its type, its place in the file, and the names of its clauses."""

    def __init__(self, name, is_const, deep, first):
        self.name, self.is_const, self.deep, self.first = name, is_const, deep, first
        # The name with its module, where the body begins and ends in the text, and its last line.
        self.path, self.start, self.end, self.last, self.clauses = name, 0, 0, 0, []

    def read(self, line, begins, number):
        """Reads a line of the function, in the layout of `rt fmt`: a body ends at the first line as deep as the head
        that begins with a brace."""
        deep = self.deep
        if not self.start:
            self.clauses += re.findall(r"\bensures\*? (\w+) \{", line)
            if "{" in line and (HEAD.match(line) or line.startswith((f"{deep})", f"{deep}{{"))):
                self.start = begins + line.index("{") + 1
                self.end = begins + line.rindex("}") if line.endswith("}") else 0
        elif line.startswith(f"{deep}}}"):
            self.end = begins + len(deep)
        self.last = number


def plain(text):
    """A type or a trait without its parameters: the last name of its path."""
    was = None
    while was != text:
        was, text = text, re.sub(r"<[^<>]*>", "", text)
    return (re.findall(r"\w+", text) or ["_"])[-1]


def kind_of(line):
    """What the prover calls the functions of a line `impl ..` or `trait ..`: by the type, or, in the impl of a trait, by
    the type, the trait and the type that is the trait's parameter. It also tells whether a trait is named."""
    head = re.sub(BLOCK.pattern, "", line.partition("{")[0].partition(" where ")[0]).lstrip()
    depth = 0
    for at, sign in enumerate(head if head.startswith("<") else ""):
        depth += {"<": 1, ">": -1}.get(sign, 0)
        if not depth:
            head = head[at + 1 :]
            break
    trait, word, kind = head.partition(" for ")
    if not word:
        return plain(head.partition(":")[0]), False
    given = trait.partition("<")[2].rpartition(">")[0]
    return plain(kind) + plain(trait) + (plain(given) if given and given[0] != "'" else ""), True


def functions_of(text):
    """The functions of a file that have a body, each with whether it stands in the impl of a trait."""
    found, kind, of_trait, function, begins, lead = [], None, False, None, 0, 0
    for number, line in enumerate(text.split("\n"), 1):
        if BLOCK.match(line):
            kind, of_trait = kind_of(line)
        elif line.startswith("}"):
            kind = None
        head = HEAD.match(line)
        # A function in a body is a part of it.
        if head and not (function and function.start):
            name = f"{kind}::{head[3]}" if head[1] and kind else head[3]
            function = Function(name, "const" in head[2], head[1], lead or number)
            is_inherent = bool(head[1] and kind and not of_trait)
        if function:
            function.read(line, begins, number)
            if function.end:
                found.append((function, is_inherent))
                function = None
        begins += len(line) + 1
        # A function begins with its attributes and its comment.
        lead = (lead or number) if re.match(r"\s*(#\[|//)", line) else 0
    return found


class Sources:
    """The files of a crate, and their functions as the prover names them."""

    def __init__(self, folder):
        self.folder, self.texts = pathlib.Path(folder), {}
        for path in sorted(self.folder.glob("src/**/*.rt")):
            self.texts[str(path.relative_to(self.folder))] = path.read_text(encoding="utf-8")
        # A method is named by the module of its type, wherever it stands.
        self.homes = {name: self.module(path) for path, text in self.texts.items() for name in TYPE.findall(text)}
        self.named = {it.path: it for path, text in self.texts.items() for it in self.functions(path, text)}

    @staticmethod
    def module(path):
        """The module that a file is."""
        parts = path.removesuffix(".rt").split("/")[1:]
        return parts[:-1] if parts[-1] in ("lib", "main", "mod") else parts

    def functions(self, path, text):
        """The functions of a file with this text."""
        found = []
        for function, is_inherent in functions_of(text):
            home = self.homes.get(function.name.partition("::")[0]) if is_inherent else None
            function.path = "::".join([*(self.module(path) if home is None else home), function.name])
            found.append(function)
        return found

    def parts(self, path, text):
        """The bodies of a file's functions by the functions' names, and what stands around them."""
        found, around, at = {}, [], 0
        for it in self.functions(path, text):
            found[it.path] = text[it.start : it.end]
            around.append(text[at : it.start])
            at = it.end
        return found, [*found, *around, text[at:]]

    def body(self, edit, texts):
        """The edit with these new texts as a change of one function's body, or None where it changes anything else."""
        (path, text), *others = texts.items()
        if others or path not in self.texts:
            return None
        (old, old_around), (new, around) = self.parts(path, self.texts[path]), self.parts(path, text)
        changed = [it for it in self.functions(path, self.texts[path]) if old[it.path] != new.get(it.path)]
        is_one = around == old_around and len(changed) == 1 and not changed[0].is_const
        return Body(edit, path, changed[0], new[changed[0].path]) if is_one else None

    def with_bodies(self, bodies):
        """The texts of the files that these bodies change, all together."""
        texts = {it.path: self.texts[it.path] for it in bodies}
        for it in sorted(bodies, key=lambda it: -it.function.start):
            text = texts[it.path]
            texts[it.path] = text[: it.function.start] + it.text + text[it.function.end :]
        return texts

    def at(self, line, texts):
        """The function that a line of the prover is placed in: in its text, or in its proof files. None is the answer
        where it is placed in none, or in what functions share. The files that were changed have these texts."""
        place = PLACE.match(line)
        path, number = (place[1], int(place[2])) if place else ("", 0)
        if path.startswith("src/"):
            text = texts.get(path) or self.texts.get(path, "")
            return next((it for it in self.functions(path, text) if it.first <= number <= it.last), None)
        return self.named.get("::".join(path.split("/")[1:-1])) if path.startswith("proofs/") else None

    def refused_by(self, said, texts):
        """The function and the clause that a refusal names, from the first line of what the prover said."""
        place = PLACE.search(said)
        if not place:
            return said.strip() or "no place is told"
        function, goal = self.at(place[0], texts), GOAL.search(place[3])
        clause = (goal[1] or goal[2]) if goal else place[3].removeprefix("error: ")[:80]
        if clause == "returns" and function and len(function.clauses) == 1:
            # The goal of a lone clause has no name of its own.
            clause = function.clauses[0]
        return f"{function.name if function else place[1]}, {clause}"


def rounds_of(bodies):
    """The bodies in rounds, none of which has a function twice."""
    rounds = []
    for body in bodies:
        free = (it for it in rounds if all(other.function.path != body.function.path for other in it))
        one = next(free, None)
        if one is None:
            rounds.append([body])
        else:
            one.append(body)
    return rounds
