"""The words of a call of fttcan, and which of them the program does not take."""
import re
import subprocess
import sys
from collections import namedtuple

from .. import limits, places
from ..faults import Unread
from ..telling import close, shown, some

# What a command takes: the names of its words, the least number of them, and its options, each with the name of its
# value, or nothing.
Command = namedtuple("Command", "names least options")
# The words that are numbers, and no paths: the least and the greatest one.
NUMBERS = {"NUMBER": (0, (1 << 32) - 1), "AT": (0, limits.CYCLES), "--tail": (1, 10_000)}


def rows_of_launcher():
    """The commands with their words as the launcher has them, a row each."""
    path = places.checkout() / "fttcan"
    try:
        text = path.read_text(encoding="utf-8")
    except OSError as fault:
        raise Unread(f"{path}: {fault.strerror}. The words of the commands stand in the launcher.") from fault
    rows = re.search(r"^commands='(.*?)'$", text, re.MULTILINE | re.DOTALL)[1].splitlines()
    return [row for row in rows if not row.startswith(" ")]


def rows_of_program():
    """The same of the program that is installed: the lines that it writes where the words are wrong."""
    try:
        done = subprocess.run([places.program() or "fttcan"], stdin=subprocess.DEVNULL, capture_output=True, text=True,
                              check=False)
    except OSError as fault:
        raise Unread(f"fttcan: {fault.strerror}. It says what the words of the commands are.") from fault
    return re.findall("^usage: fttcan (.*)$", done.stderr, re.MULTILINE)


def commands():
    """The commands, each with its words."""
    found = {}
    for row in rows_of_launcher() if places.checkout() else rows_of_program():
        options = dict(re.findall(r"\[(--[a-z-]+)(?: ([A-Z]+))?\]", row))
        names = re.findall(r"(\[?)\b([A-Z]+)\b", re.sub(r"\[--[^]]*\]", "", row))
        found[row.split()[0]] = Command([name for _, name in names], sum(not it for it, _ in names), options)
    return found


def why_no_option(command, name, options):
    """What to do about an option that a command does not have."""
    near = close(name.lower(), options)
    told = " and ".join(f"{it} {value}".strip() for it, value in options.items()) or "no option"
    return f"{shown(name)} is no option of {command}. {f'Is it {near}?' if near else f'It takes {told}.'}"


def number_fault(name, value):
    """What is wrong with a word that has to be a number; None for nothing. One + and zeros may stand in front."""
    low, high = NUMBERS[name]
    digits = re.fullmatch(r"\+?0*([0-9]{1,20})", value)
    if digits is not None and low <= int(digits[1]) <= high:
        return None
    return f"{name} is {shown(value)}. Take {low} to {high}, in digits."


def option_fault(name, value):
    """What is wrong with the value of an option; None for nothing."""
    if value is None:
        return f"{name} has no value. Write one after it."
    return number_fault(name, value) if name in NUMBERS else None


def parted(command, options, words):
    """The words of a call that are no options, and what is wrong with its options."""
    others, faults, seen, waiting = [], [], set(), list(words)
    while waiting:
        word = waiting.pop(0)
        if word == "--":
            others += waiting
            break
        name, sign, value = word.partition("=")
        if word == "-" or not word.startswith("-"):
            others.append(word)
        elif name not in options:
            faults.append(why_no_option(command, name, options))
        elif name in seen:
            faults.append(f"{name} stands twice. Take one away.")
        elif sign and not options[name]:
            faults.append(f"{name} takes no value. Write it alone.")
        else:
            seen.add(name)
            if options[name]:
                value = value if sign else waiting.pop(0) if waiting else None
                faults += filter(None, [option_fault(name, value)])
    return others, faults


def place_faults(command, names, words):
    """What is wrong with words in their places: numbers that are none, and paths that are -."""
    faults = []
    for place, (name, word) in enumerate(zip(names, words)):
        if name in NUMBERS:
            fault = number_fault(name, word)
            behind = words[place + 1:place + 2]
            if fault is not None and behind and number_fault(name, behind[0]) is None:
                right = [*words[:place], behind[0], word]
                fault = (f"{name} is {shown(word)}, and {shown(behind[0])} comes after it. {name} comes first: "
                         f"{command} {' '.join(right)}.")
            faults += filter(None, [fault])
        elif word == "-":
            faults.append(f"{name} is '-', which is a path here. For standard input write /dev/stdin.")
    return faults


def words_faults(words):
    """What is wrong with the words of a call of fttcan."""
    known = commands()
    if not words:
        return [f"there are no words. The first one is one of {', '.join(known)}."]
    strange = next((word for word in words if any(0xD800 <= ord(letter) < 0xE000 for letter in word)), None)
    if strange is not None:
        return [f"{shown(strange)} is not UTF-8. Give the file another name."]
    command = words[0]
    if command not in known:
        near = close(command.lower(), known)
        remedy = f"Is it {near}?" if near else f"Take one of {', '.join(known)}."
        return [f"{shown(command)} is no command. {remedy}"]
    names, least, options = known[command]
    others, faults = parted(command, options, words[1:])
    if len(others) < least:
        faults.append(f"{names[len(others)]} is missing. {command} takes {' '.join(names[:least])}"
                      + (f", and {names[least]} where there is one." if least < len(names) else "."))
    elif len(others) > len(names):
        faults.append(f"{shown(others[len(names)])} is too much. {command} takes {' '.join(names)}.")
    return faults + place_faults(command, names, others)


def lint_words(words):
    """Says what is wrong with the words of a call. The status."""
    try:
        faults = words_faults(words)
    except Unread as fault:
        print(fault, file=sys.stderr)
        return 3
    lines = [f"words: mistake: {fault}" for fault in faults]
    print("\n".join([*lines, some(len(faults), "mistake")]))
    return 2 if faults else 0
