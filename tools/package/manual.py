"""Manual pages of the tools, made from their helps."""
import re

from helps import REFERENCE, TOOLS, help_of


def plain(text):
    """The text as a manual page has it. Words in code font become bold."""
    text = text.replace("\\", "\\e").replace("-", "\\-")
    text = re.sub(r"`([^`]*)`", r"\\fB\1\\fR", text)
    return re.sub(r"^([.'])", r"\\&\1", text, flags=re.MULTILINE)


def own_names(text):
    """The text with the names that installed commands have."""
    return re.sub(r"\btools/(ftt\w+)", r"\1", text).replace("tools/reference", REFERENCE)


def row(words, told):
    """A row of a list: the words in bold, and what is told of them."""
    return [".TP", f"\\fB{plain(words)}\\fR", plain(told)] if told else [".TP", f"\\fB{plain(words)}\\fR"]


def usages(paragraph, name):
    """The calls that a paragraph shows, each a line. What is told after one is left out."""
    calls = []
    for line in paragraph.splitlines():
        call = re.split(r"(?<=\S) {2,}", line.strip())[0]
        if call.split()[0] == name or not calls:
            calls.append(call)
        else:
            calls[-1] += f" {call}"
    return calls


def call_lines(calls):
    """The lines of calls. No line ends inside a bracket."""
    lines = []
    for call in calls:
        name, _, rest = call.partition(" ")
        rest = re.sub(r"\[[^\[\]]*\]", lambda part: part[0].replace(" ", "\0"), rest)
        lines += [".HP", f"\\fB{plain(name)}\\fR {plain(rest)}".replace("\0", "\\ ")]
    return lines


def status_lines(paragraph):
    """The rows of a paragraph that tells the statuses, and what stands after them."""
    text = " ".join(paragraph.split()).removeprefix("Status: ")
    parts = re.split(r"; (?=[0-9])", text)
    parts[-1], _, rest = parts[-1].partition(". ")
    lines = [".SH EXIT STATUS"]
    for part in parts:
        number, _, told = part.partition(" ")
        lines += row(number, told.rstrip("."))
    return lines, rest


def described(paragraph):
    """The lines of a paragraph: a list where each line has a word and what is told of it, text as it stands where it is
    indented, and else text that is filled."""
    lines = paragraph.splitlines()
    listed = [re.fullmatch(r" {4}(\S+) {2,}(\S.*)", line) for line in lines]
    if all(listed):
        return [part for match in listed for part in row(match[1], match[2])]
    if all(line.startswith(" ") for line in lines):
        return [".PP", ".nf", *(plain(line) for line in lines), ".fi"]
    return [".PP", *(plain(line.strip()) for line in lines)]


def listed_rows(title, rows):
    """A section of rows, where there are some."""
    shown = [each for each in rows if each.told]
    return [title, *(part for each in shown for part in row(each.words, each.told))] if shown else []


def form_lines(name, told):
    """The sections of the forms of a tool."""
    lines = [".SH FORMS"] if told.forms else []
    for form in told.forms:
        one = help_of(name, form.words)
        lines += [f".SS {plain(form.words)}", plain(form.told + "."), *call_lines([one.usage])]
        for each in one.words + [it for it in one.options if not it.words.startswith("-h")]:
            lines += row(each.words, each.told)
    return lines


def page(name, version):
    """The manual page of an installed command."""
    told = help_of(name)
    first, *rest = [own_names(part) for part in told.paragraphs]
    brief = re.split(r"\.(?:\s|$)", " ".join(first.split()))[0]
    calls = usages(rest.pop(0), name) if rest and rest[0].startswith("    ") else [told.usage]
    end, text = [], []
    for part in rest:
        if part.startswith("Status: "):
            end, behind = status_lines(part)
            text += described(behind) if behind else []
        else:
            text += described(part)
    others = [it for it in ("fttcan", *TOOLS, REFERENCE) if it != name]
    lines = ['.\\" Made from the help of the tool by tools/print-manual.',
             f'.TH {name.upper().replace("-", chr(92) + "-")} 1 "" "fttcan {version}" "User commands"',
             ".nh", ".SH NAME", f"{plain(name)} \\- {plain(brief[0].lower() + brief[1:])}",
             ".SH SYNOPSIS", *call_lines(calls), ".SH DESCRIPTION", *described(first)[1:], *text,
             *listed_rows(".SH WORDS", told.words), *listed_rows(".SH OPTIONS", told.options),
             *form_lines(name, told), *end, ".SH SEE ALSO", ", ".join(f"\\fB{plain(it)}\\fR(1)" for it in others)]
    return "\n".join(lines) + "\n"
