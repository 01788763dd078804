"""Rewrites the text of a module of the kit, which is made for x86-64, so that clang compiles it for another processor.

A module of the kit says `ptr` for each pointer and `i64` for each `usize`. For a target with 64-bit addresses little has to
change. For one with 32-bit addresses `usize` keeps its 64 bits, and **memory stays byte for byte that of 64 bits**: a
pointer in memory takes eight bytes there too, the lower four of which are the address, and the upper four are 0. In a
register a pointer is what the target has. So every struct keeps its size and its offsets, and a saved state its bytes.

The rules, by their names. Each line of a module is of one form of FORMS, and the form says which rule rewrites it, or that it
stays. A line of no form is refused, with its number: it may hold a pointer in a way that no rule knows.

    target      The lines of the target, and the words of attributes that only x86-64 has, are taken away.
    alloca      A local that holds a pointer holds 64 bits.
    load        A pointer is read from memory as 64 bits, and made a pointer.
    store       A pointer is made a number of 64 bits, and written. Its upper half is 0.
    pair        A pair with a pointer, which a function returns or which is read or written whole, has 64 bits in its place.
    extract     What is taken out of such a pair is made a pointer.
    insert      A pointer that is put into such a pair is made 64 bits.
    length      The lengths that memset, memcpy and memmove are passed have the 32 bits of an address.
    address     ptrtoaddr, which has to have the width of an address, becomes ptrtoint, which widens.
    constant    After each pointer in a constant come four bytes of zeros. So a constant is little-endian.
    heap        The three functions of the kit's heap are those of fttcan_heap.h. For 32 bits each gets a function around it,
                which turns a C struct with a pointer into a pair of 64 bits. For 64 bits a new name is enough.
    answer      On riscv64 a number of 32 bits that a call of the library answers is sign-extended, as C has it there.

For 64 bits only `target`, `heap` and `answer` are needed, and lines are not looked at otherwise.

After all rules no line may have a pointer in memory, in a pair, or in a constant without its zeros, nor a length of 64 bits:
LEFT lists what would be left over, and that is refused too. What a pointer stands for stays true on 32 bits if no block is
as large as 2^31 bytes, and if none reaches the end of the address space; the heaps of library/ see to that.
"""
import re

from .kit import BuildFault


class Refused(BuildFault):
    """A line that no rule knows, or a pointer that is left over."""


# Parts of lines. A value never has a comma outside of round brackets.
NAME = r'%[\w.$-]+|%"[^"]*"'
GLOBAL = r'@[\w.$]+|@"[^"]*"'
OFFSET = rf"getelementptr (?:inbounds )?(?:nuw )?\(i8, ptr (?:{GLOBAL}), i64 \d+\)"
INTS = r"<i\d+ -?\d+(?:, i\d+ -?\d+)*>"
VALUE = (rf"(?:{NAME}|{GLOBAL}|{OFFSET}|-?\d+|0x[0-9A-F]+|-?\d\.\d+e[+-]\d+|splat \(i\d+ -?\d+\)|{INTS}"
         r"|true|false|null|undef|poison|zeroinitializer)")
INT = r"i\d+"
# A type with no pointer: a number, or a row of numbers, which stands in memory as on x86-64.
FLAT = r"(?:i\d+|double|<\d+ x i\d+>)"
# What may stand in a pair: on each target these are aligned as on x86-64.
SMALL = r"(?:i1|i8|i16|i32|i64|double|ptr)"
PAIR = rf"\{{ {SMALL}, {SMALL} \}}"
ONE = rf"(?:{FLAT}|ptr)"
# Attributes of a parameter, an argument or an answer: none of them passes memory.
ATTRIBUTE = (r"(?:noundef|zeroext|signext|noalias|nonnull|readonly|writeonly|readnone|nofree|immarg|returned|captures\(\w+\)"
             r"|nocapture|align \d+|dereferenceable\(\d+\))")
ATTRIBUTES = rf"(?:{ATTRIBUTE} )*"
PARAMETER = rf"{ONE}(?: {ATTRIBUTE})*(?: (?:{NAME}))?"
ARGUMENT = rf"{ONE} {ATTRIBUTES}{VALUE}"
# What may be said of a number that is read: none of it speaks of a pointer.
SAID = r"(?:, ![a-z_.]+ !\d+)*"
HEAPS = {"rattle_alloc": "fttcan_heap_alloc", "rattle_realloc": "fttcan_heap_realloc", "rattle_dealloc": "fttcan_heap_free"}
OF_HEAP = "|".join(HEAPS)
MACHINE = re.compile(r'"(?:target-cpu|target-features|tune-cpu|rattle-sig)"="[^"]*" ?')
PROBES = re.compile(r'"(?:probe-stack|stack-probe-size)"="[^"]*" ?')
WORDS = (r"(?:nounwind|nobuiltin|noinline|alwaysinline|inlinehint|cold|noreturn|nocallback|nocreateundeforpoison|nofree|nosync|norecurse|mustprogress"
         r"|speculatable|willreturn|optsize|minsize|memory\([^)]*\))")

# The functions around the heap, for 32 bits. A C struct of 16 bytes is answered through a pointer on each of these targets;
# its pointer has four bytes, which become eight here.
AROUND = """
declare void @fttcan_heap_alloc(ptr sret({ i64, ptr }) align 8, i64, i64)
declare void @fttcan_heap_realloc(ptr sret({ i64, ptr }) align 8, ptr, i64, i64, i64)
declare void @fttcan_heap_free(ptr)

define internal { i64, i64 } @fttcan_around_block(ptr %block) alwaysinline nounwind {
  %ok = load i64, ptr %block, align 8
  %place = getelementptr i8, ptr %block, i64 8
  %at = load ptr, ptr %place, align 8
  %wide = ptrtoint ptr %at to i64
  %half = insertvalue { i64, i64 } poison, i64 %ok, 0
  %whole = insertvalue { i64, i64 } %half, i64 %wide, 1
  ret { i64, i64 } %whole
}

define internal { i64, i64 } @rattle_alloc(i64 %size, i64 %align) noinline nounwind {
  %block = alloca { i64, ptr }, align 8
  call void @fttcan_heap_alloc(ptr sret({ i64, ptr }) align 8 %block, i64 %size, i64 %align)
  %whole = call { i64, i64 } @fttcan_around_block(ptr %block)
  ret { i64, i64 } %whole
}

define internal { i64, i64 } @rattle_realloc(ptr %at, i64 %kept, i64 %size, i64 %align) noinline nounwind {
  %block = alloca { i64, ptr }, align 8
  call void @fttcan_heap_realloc(ptr sret({ i64, ptr }) align 8 %block, ptr %at, i64 %kept, i64 %size, i64 %align)
  %whole = call { i64, i64 } @fttcan_around_block(ptr %block)
  ret { i64, i64 } %whole
}

define internal void @rattle_dealloc(ptr %at) nounwind {
  call void @fttcan_heap_free(ptr %at)
  ret void
}
"""


class Fresh:
    """Names for numbers that the rules add, each used once."""

    def __init__(self):
        self.used = 0

    def name(self):
        """The next one."""
        self.used += 1
        return f"%wide.{self.used}"


def wide(text):
    """A type or a list of types with 64 bits in place of each pointer."""
    return re.sub(r"\bptr\b", "i64", text)


def pairs_widened(line):
    """A line whose pairs have 64 bits in place of pointers."""
    return re.sub(PAIR, lambda found: wide(found[0]), line)


def members(pair):
    """The types of a pair."""
    return [part.strip() for part in pair.strip("{} ").split(",")]


# The rules: each is passed what was found of its form, and names for new numbers, and answers the new lines.

def target(_found, _fresh):
    """Nothing stays."""
    return ""


def alloca(found, _fresh):
    """A local for a pointer."""
    return f"  {found[1]} = alloca i64, align {found[2]}"


def load(found, fresh):
    """A pointer is read."""
    number = fresh.name()
    return f"  {number} = load i64, ptr {found[2]}, align {found[3]}\n  {found[1]} = inttoptr i64 {number} to ptr"


def store(found, fresh):
    """A pointer is written."""
    number = fresh.name()
    return f"  {number} = ptrtoint ptr {found[1]} to i64\n  store i64 {number}, ptr {found[2]}, align {found[3]}"


def pair(found, _fresh):
    """A pair is read, written, answered or passed on."""
    return pairs_widened(found[0])


def extract(found, fresh):
    """A member of a pair."""
    new, kind, whole, which = found[1], found[2], found[3], int(found[4])
    if members(kind)[which] != "ptr":
        return f"  {new} = extractvalue {wide(kind)} {whole}, {which}"
    number = fresh.name()
    return f"  {number} = extractvalue {wide(kind)} {whole}, {which}\n  {new} = inttoptr i64 {number} to ptr"


def insert(found, fresh):
    """A member is put into a pair."""
    new, kind, whole, of_member, member, which = found[1], found[2], found[3], found[4], found[5], found[6]
    if of_member != "ptr":
        return f"  {new} = insertvalue {wide(kind)} {whole}, {of_member} {member}, {which}"
    number = fresh.name()
    return f"  {number} = ptrtoint ptr {member} to i64\n  {new} = insertvalue {wide(kind)} {whole}, i64 {number}, {which}"


def length(found, fresh):
    """Memory is set, copied or moved."""
    if found["kinds"]:
        return f"declare void @llvm.{found['what']}.i32({found['kinds']}, i32{found['behind']}"
    number = fresh.name()
    return (f"  {number} = trunc i64 {found['many']} to i32\n  {found['call']} void @llvm.{found['told']}.i32({found['places']}, "
            f"i32 {number}, i1 {found['is_volatile']}){found['end']}")


def address(found, _fresh):
    """An address as a number."""
    return f"  {found[1]} = ptrtoint ptr {found[2]} to i64"


def split(text, opened="{[<(", closed="}]>)"):
    """The parts of a list, between commas that stand in no bracket and in no string."""
    parts, depth, start, is_text = [], 0, 0, False
    for place, letter in enumerate(text):
        if letter == '"':
            is_text = not is_text
        elif is_text:
            continue
        elif letter in opened:
            depth += 1
        elif letter in closed:
            depth -= 1
        elif letter == "," and depth == 0:
            parts.append(text[start:place].strip())
            start = place + 1
    return [*parts, text[start:].strip()]


def constant(found, _fresh):
    """A constant with pointers: four zeros after each of them."""
    kinds, values = split(found[2]), split(found[3])
    if len(kinds) != len(values):
        raise Refused(f"a constant has {len(kinds)} types and {len(values)} values")
    new_kinds, new_values = [], []
    for kind, value in zip(kinds, values):
        if not (re.fullmatch(rf"ptr (?:{GLOBAL}|{OFFSET}|null)", value) if kind == "ptr"
                else re.fullmatch(rf"\[\d+ x i8\]|{INT}", kind) and value.startswith(f"{kind} ")):
            raise Refused(f"a constant has the part {value[:60]} of the type {kind}")
        new_kinds += [kind, "[4 x i8]"] if kind == "ptr" else [kind]
        new_values += [value, "[4 x i8] zeroinitializer"] if kind == "ptr" else [value]
    return f"{found[1]}<{{ {', '.join(new_kinds)} }}> <{{ {', '.join(new_values)} }}>{found[4]}"


def attributes(found, _fresh):
    """The words of attributes of functions."""
    return f"attributes #{found[1]} = {{ {PROBES.sub('', MACHINE.sub('', found[2])).strip()} }}"


# The forms of lines for 32 bits: the rule's name or None, the form, and the rule or None if the line stays.
FORMS = [(name, re.compile(form), rule) for name, form, rule in [
    (None, r"", None),
    (None, r";.*", None),
    (None, r"\}", None),
    (None, r'(?:[\w.$-]+|"[^"]*"):(?: +;.*)?', None),
    ("target", r"target (?:triple|datalayout) = .*", target),
    (None, r'source_filename = "[^"]*"', None),
    (None, r"!(?:\d+|[\w.]+) = (?:distinct )?!\{.*\}", None),
    # Functions.
    (None, rf'define (?:internal )?{ATTRIBUTES}(?:{ONE}|void) (?:{GLOBAL})\((?:{PARAMETER}(?:, {PARAMETER})*)?\)'
           rf"(?: (?:unnamed_addr|local_unnamed_addr|{WORDS}))*(?: #\d+)? \{{", None),
    ("pair", rf"define (?:internal )?{ATTRIBUTES}{PAIR} (?:{GLOBAL})\((?:{PARAMETER}(?:, {PARAMETER})*)?\)"
             rf"(?: (?:unnamed_addr|local_unnamed_addr|{WORDS}))*(?: #\d+)? \{{", pair),
    ("length", r"declare void @llvm\.(?P<what>(?:memset|memcpy|memmove)\.p0(?:\.p0)?)\.i64\("
               r"(?P<kinds>ptr[^()]*(?:\([^()]*\)[^()]*)*?(?:, i8)?(?:, ptr[^()]*(?:\([^()]*\)[^()]*)*?)?), i64(?P<behind>, i1 immarg\).*)",
     length),
    ("heap", rf"declare {ATTRIBUTES}(?:void|\{{ i64, i64 \}}) @(?:{OF_HEAP})\((?:{PARAMETER}(?:, {PARAMETER})*)\)(?: #\d+)?", target),
    (None, rf"declare (?:{FLAT}|void|\{{ {INT}, i1 \}}) @llvm\.[\w.]+\((?:{FLAT}(?: {ATTRIBUTE})*(?:, {FLAT}(?: {ATTRIBUTE})*)*)?\)(?: #\d+)?", None),
    ("target", rf'attributes #(\d+) = \{{((?: (?:{WORDS}|"(?:target-cpu|target-features|tune-cpu|rattle-sig|probe-stack|stack-probe-size)"'
               r'="[^"]*"))*) \}', attributes),
    # Memory.
    (None, rf"  (?:{NAME}) = alloca (?:{FLAT}|\[\d+ x i8\]), align \d+", None),
    ("alloca", rf"  ({NAME}) = alloca ptr, align (\d+)", alloca),
    (None, rf"  (?:{NAME}) = load {FLAT}, ptr {VALUE}, align \d+{SAID}", None),
    ("load", rf"  ({NAME}) = load ptr, ptr ({VALUE}), align (\d+){SAID}", load),
    (None, rf"  store {FLAT} {VALUE}, ptr {VALUE}, align \d+", None),
    ("store", rf"  store ptr ({VALUE}), ptr ({VALUE}), align (\d+)", store),
    ("pair", rf"  (?:{NAME}) = alloca {PAIR}, align \d+", pair),
    ("pair", rf"  (?:{NAME}) = load {PAIR}, ptr {VALUE}, align \d+", pair),
    ("pair", rf"  store {PAIR} (?:{NAME}), ptr {VALUE}, align \d+", pair),
    (None, rf"  (?:{NAME}) = getelementptr (?:inbounds |nuw |nusw )*i8, ptr {VALUE}, i64 {VALUE}", None),
    ("length", r"  (?P<call>(?:tail )?call) void @llvm\.(?P<told>(?:memset|memcpy|memmove)\.p0(?:\.p0)?)\.i64\("
               rf"(?P<places>ptr {ATTRIBUTES}{VALUE}, (?:i8 {VALUE}|ptr {ATTRIBUTES}{VALUE})), i64 (?P<many>{VALUE}), "
               r"i1 (?P<is_volatile>false|true)\)(?P<end>(?: #\d+)?)(?P<kinds>)", length),
    # Calls: of a function that has a name, never through a pointer.
    (None, rf"  (?:(?:{NAME}) = )?(?:tail )?call {ATTRIBUTES}(?:{ONE}|void) (?!@llvm\.mem)(?:{GLOBAL})\((?:{ARGUMENT}(?:, {ARGUMENT})*)?\)(?: #\d+)?", None),
    ("pair", rf"  (?:{NAME}) = (?:tail )?call {ATTRIBUTES}{PAIR} (?:{GLOBAL})\((?:{ARGUMENT}(?:, {ARGUMENT})*)?\)(?: #\d+)?", pair),
    ("extract", rf"  ({NAME}) = extractvalue ({PAIR}) ({NAME}), ([01])", extract),
    ("insert", rf"  ({NAME}) = insertvalue ({PAIR}) ({VALUE}), ({SMALL}) ({VALUE}), ([01])", insert),
    # What has no pointer, or one in a register alone.
    (None, rf"  (?:{NAME}) = (?:add|sub|mul|udiv|sdiv|urem|srem|and|or|xor|shl|lshr|ashr)(?: (?:nuw|nsw|exact|disjoint))* {FLAT} {VALUE}, {VALUE}", None),
    (None, rf"  (?:{NAME}) = (?:fadd|fsub|fmul|fdiv|frem) double {VALUE}, {VALUE}", None),
    (None, rf"  (?:{NAME}) = fneg double {VALUE}", None),
    (None, rf"  (?:{NAME}) = fcmp [a-z]+ double {VALUE}, {VALUE}", None),
    (None, rf"  (?:{NAME}) = (?:uitofp|sitofp|fptoui|fptosi|bitcast) {FLAT} {VALUE} to {FLAT}", None),
    (None, rf"  (?:{NAME}) = insertelement {FLAT} {VALUE}, {INT} {VALUE}, {INT} {VALUE}", None),
    (None, rf"  (?:{NAME}) = extractelement {FLAT} {VALUE}, {INT} {VALUE}", None),
    (None, rf"  (?:{NAME}) = shufflevector {FLAT} {VALUE}, {FLAT} {VALUE}, {FLAT} {VALUE}", None),
    (None, rf"  (?:{NAME}) = (?:zext|sext|trunc)(?: (?:nneg|nuw|nsw))* {FLAT} {VALUE} to {FLAT}", None),
    (None, rf"  (?:{NAME}) = icmp (?:samesign )?(?:eq|ne|[us][lg][te]) {ONE} {VALUE}, {VALUE}", None),
    (None, rf"  (?:{NAME}) = select i1 {VALUE}, {ONE} {VALUE}, {ONE} {VALUE}", None),
    (None, rf"  (?:{NAME}) = phi {ONE} \[ {VALUE}, (?:{NAME}) \](?:, \[ {VALUE}, (?:{NAME}) \])*", None),
    (None, rf"  (?:{NAME}) = freeze {ONE} {VALUE}", None),
    ("address", rf"  ({NAME}) = ptrtoaddr ptr ({VALUE}) to i64", address),
    (None, rf"  (?:{NAME}) = ptrtoint ptr {VALUE} to i64", None),
    (None, rf"  (?:{NAME}) = inttoptr i64 {VALUE} to ptr", None),
    (None, rf"  br label (?:{NAME})", None),
    (None, rf"  br i1 {VALUE}, label (?:{NAME}), label (?:{NAME})", None),
    (None, rf"  switch {INT} {VALUE}, label (?:{NAME}) \[", None),
    (None, rf"    {INT} -?\d+, label (?:{NAME})", None),
    (None, r"  \]", None),
    (None, r"  unreachable", None),
    (None, rf"  ret (?:void|{ONE} {VALUE})", None),
    ("pair", rf"  ret {PAIR} (?:{NAME}|poison|undef|zeroinitializer)", pair),
    # Constants.
    (None, rf'(?:{GLOBAL}) = (?:private |internal )?(?:unnamed_addr )?constant \[\d+ x i8\] (?:c"[^"]*"|zeroinitializer), align \d+', None),
    (None, rf'(?:{GLOBAL}) = (?:private |internal )?(?:unnamed_addr )?constant (?:{INT}) {VALUE}, align \d+', None),
    ("constant", rf"((?:{GLOBAL}) = (?:private |internal )?(?:unnamed_addr )?constant )<\{{ ([^{{}}]*) \}}> <\{{ (.*) \}}>(, align \d+)", constant),
]]

# What no line may have after the rules.
LEFT = re.compile(r"\bload ptr,|\bstore ptr |\balloca ptr\b|\{[^{}]*\bptr\b[^{}]*\}|@llvm\.mem\w+(?:\.p0)+\.i64|\bptrtoaddr\b"
                  r"|\[\d+ x ptr\]|\bsret\(|\bbyval\(|\bx86\b|^target ")
# In a constant each pointer has its zeros.
BARE = re.compile(r"\bptr\b(?!, \[4 x i8\])")


def without_strings(line):
    """A line without what stands between quotation marks, which are bytes and names."""
    return re.sub(r'"[^"]*"', '""', line)


def left_over(line):
    """What of a rewritten line is left over, or nothing."""
    text = without_strings(line)
    if " constant <{" in text:
        found = BARE.search(text.partition("<{")[2].partition("}>")[0])
    else:
        found = LEFT.search(text)
    return found[0] if found else None


def narrow(lines, forms=None):
    """The lines of a module for 32-bit addresses. A line that has no form, and a pointer that is left over, are refused."""
    fresh, by_start = Fresh(), {}
    for number, line in enumerate(lines, 1):
        line = line.rstrip("\n")
        # (most lines are told by the front of them which form they have)
        start = re.sub(r"^(  )(?:%\S+ = )?(\w+(?: [a-z]+\d*)?).*", r"\1\2", line, flags=re.DOTALL)
        for place, (name, form, rule) in by_start.setdefault(start, dict(enumerate(forms or FORMS))).items():
            found = form.fullmatch(line)
            if found:
                break
        else:
            raise Refused(f"line {number} of the module has a form that no rule knows: {line.strip()[:200]}")
        # (the form that fitted is tried first the next time)
        tried = by_start[start]
        if next(iter(tried)) != place:
            by_start[start] = {place: (name, form, rule), **tried}
        try:
            new = line if rule is None else rule(found, fresh)
        except Refused as fault:
            raise Refused(f"line {number} of the module: {fault}") from fault
        for one in new.split("\n"):
            left = left_over(one)
            if left:
                raise Refused(f"line {number} of the module, after the rules: {left.strip()} is left over in {one.strip()[:200]}")
        if rule is not target:
            yield new + "\n"
    yield AROUND


EXPORT = re.compile(r"^define (noundef )?i32 (@\"?fttcan_\w+\"?\()")


def same_width(lines, is_riscv64=False):
    """The lines of a module for 64-bit addresses."""
    for line in lines:
        if line.startswith(("target triple", "target datalayout")):
            continue
        if line.startswith("attributes #"):
            line = re.sub(r" *\}$", " }", MACHINE.sub("", line).rstrip("\n")) + "\n"
        for old, new in HEAPS.items():
            line = line.replace(f"@{old}(", f"@{new}(").replace(f'@"{old}"(', f"@{new}(")
        if is_riscv64:
            line = EXPORT.sub(r"define \1signext i32 \2", line)
        yield line


def older(lines):
    """The same lines for an LLVM before 21, which another compiler may have: words that it does not know are left out. Of
    these none says what the code does: they say more of what it may rely on."""
    for line in lines:
        line = re.sub(r"captures\(none\)", "nocapture", line)
        line = re.sub(r"getelementptr inbounds nuw ", "getelementptr inbounds ", line)
        line = re.sub(r"\bnocreateundeforpoison ", "", line)
        yield line.replace("ptrtoaddr", "ptrtoint")


def rewritten(text, bits, is_riscv64=False, forms=None):
    """The text of a module for a target with addresses of so many bits."""
    lines = text.splitlines()
    if bits == 64:
        return "".join(f"{line}\n" for line in same_width(lines, is_riscv64))
    return "".join(narrow(lines, forms))
