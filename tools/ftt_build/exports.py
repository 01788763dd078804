"""The functions that the crates export to C, as their sources and the files of library/ have them."""
import pathlib
import re

# An exported function: its name, its parameters and what it answers.
EXPORT = re.compile(r'#\[unsafe\(no_mangle\)\]\s*pub\s+(?:unsafe\s+)?extern\s+"C"\s+fn\s+(\w+)\s*\(([^)]*)\)\s*(?:->\s*(\w+))?')


def in_crate(folder):
    """The exports of a crate: name, types of the parameters, and the type of the answer or nothing."""
    found = []
    for file in sorted((pathlib.Path(folder) / "src").rglob("*.rt")):
        for name, parameters, answer in EXPORT.findall(file.read_text(encoding="utf-8")):
            types = [part.split(":", 1)[1].strip() for part in re.sub(r"//[^\n]*", "", parameters).split(",") if ":" in part]
            found.append((name, types, answer))
    return found


def caller(crate, exports):
    """The text of a program that reaches each export of a crate, and calls none of them."""
    lines = [f"use {crate}::*;", "use std::alloc::Global;", ""]
    held = []
    for name, types, answer in exports:
        parameters = ", ".join(f"a{place}: {kind}" for place, kind in enumerate(types))
        behind = f" -> {answer}" if answer else ""
        words = ", ".join(f"a{place}" for place in range(len(types)))
        lines.append(f"fn of_{name}({parameters}){behind} {{ {crate}::{name}({words}) }}")
        held.append(f"    let _{name}: fn({', '.join(types)}){behind} = of_{name};")
    return "\n".join([*lines, "", "fn main(rt: HostRuntime) {", *held, "}", ""])


def in_header(text):
    """The functions that a header declares, in its order, without those that it defines."""
    bare = re.sub(r"/\*.*?\*/", "", text, flags=re.DOTALL)
    return [name for name, end in re.findall(r"^(?:uint32_t|void)\s+(fttcan_\w+)\([^)]*\)([;{])", bare, re.MULTILINE)
            if end == ";"]


def in_map(text):
    """The functions that a version script lets out."""
    return re.findall(r"\b(fttcan_\w+);", text)
