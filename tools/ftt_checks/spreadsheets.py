"""Lists as spreadsheets of several countries write them: decimal marks, separators of thousands, encodings, quotes."""
from . import cases

HEAD = "name;sender;length;period\n"
WIDE = "name;sender;length;period (ms);deadline [ms]\nTür;x;8;2,5;\n"


def amounts(model):
    """`1.000` is a thousand for some and one for others. It is taken where other times of the list show which."""
    for name, rows, said in (
            ("beside a decimal comma", "a;x;8;2,5\nb;x;8;1.000\n", "m.csv:3: period is '1.000': it may be 1000 or 1 ms, and "
             "other times of this file have a decimal comma. Write 1000 or 1."),
            ("where nothing shows which", "a;x;8;10\nb;x;8;12.500\n", "m.csv:3: period is '12.500': it may be 12500 or "
             "12,5 ms, and no other time of this file shows which."),
            ("beside 1.000,5", "a;x;8;1.000,5\nb;x;8;2.000\n", "m.csv:2: period is '1.000,5': this is no time."),
            ("with a comma, beside a decimal point", "a;x;8;2.5\nb;x;8;1,000\n", "m.csv:3: period is '1,000': it may be 1000 "
             "or 1 ms, and other times of this file have a decimal point."),
            ("of millions", "a;x;8;2,5\nb;x;8;1.000.000\n", "m.csv:3: period is '1.000.000': this is no time. Write it "
             "without separators of thousands: 1000000."),
            ("beside both marks", "a;x;8;2,5\nb;x;8;2.5\nc;x;8;1.000\n", "m.csv:4: period is '1.000': it may be 1000 or 1")):
        model(f"refuses thousands {name}", HEAD + rows, 2, said)
    # 1.000 is 1 ms beside 2.5, and 0.500 can be nothing else; 1,000 is 1 ms where commas are usual
    for name, text, period in (("a point that is decimal", f"{HEAD}a;x;8;2.5\nb;x;8;1.000\n", 1),
                               ("a point after a nought", f"{HEAD}a;x;8;0.500\nb;x;8;4.000\n", 8),
                               ("a comma with three digits", f"{HEAD}a;x;8;10\nb;x;8;4,000\n", 4),
                               ("points between commas", "name,sender,length,period\na,x,8,10\nb,x,8,4.000\n", 4)):
        model(f"takes {name}", text, 0, cycle="500" if period == 8 else "1000", kbits="1000" if period == 8 else "500",
              options=("--cycles", "1"), files={"steps.csv": f"add,1,0,8,0,{period},{period},0\n"})


def encodings(model):
    """What Excel writes in Germany: Windows-1252, UTF-16 with tabs, and units in brackets."""
    row = {"names.csv": "0,Tür,x,0,2,2.5,,sync,2.5\n", "steps.csv": "add,1,0,0,0,8,0,2,2,0\n"}
    model("takes units in brackets", WIDE, 0, files=row)
    model("takes Windows-1252", WIDE.encode("cp1252"), 0, "m.csv: read as Windows-1252, since line 2 is not UTF-8: are the "
          "letters of 'Tür' right?", files=row)
    model("takes UTF-16", WIDE.replace(";", "\t").encode("utf-16"), 0, "m.csv: read as UTF-16\n", files=row)
    model("takes UTF-16 of the other order", b"\xfe\xff" + WIDE.encode("utf-16-be"), 0, "read as UTF-16\n", files=row)
    model("refuses half a UTF-16", WIDE.encode("utf-16")[:-1], 2, "m.csv:1: the file begins as UTF-16, and is not.")
    model("refuses what is neither", b"name,sender,length,period\na\x81\x02,x,8,10\n", 2, "m.csv:2: a byte is not UTF-8.")
    model("refuses bytes of 0", b"\0" * 5000, 2, "m.csv:1: the file has bytes of 0, so it is no text.")
    model("knows German columns", "Botschaft;Steuergerät;Länge;Zykluszeit [ms]\na;x;8;9\n", 2, *(
        f"m.csv:1: the column is '{name}': there is none of this name. Is it {column}?" for name, column in (
            ("Botschaft", "name"), ("Steuergerät", "sender"), ("Länge", "length"), ("Zykluszeit [ms]", "period"))))


def quotes(model):
    """Fields that are no fields: an open quote, and one of many letters."""
    head = "name,sender,length,period,note\n"
    model("refuses an open quote", f'{head}a,x,8,10,"first\nb,x,8,10,\n', 2, "m.csv:2: a quote is opened in this line, and "
          "none closes it.")
    model("takes a note of two lines", f'{head}a,x,8,10,"first\nsecond"\nb,x,8,10,\n', 0, "messages: 2 synchronous")
    model("refuses a field of 200,000 letters", f"{head}{'a' * 200_000},x,8,10,\n", 2, "m.csv:2: a field is too long.")


def huge(tools):
    """A file of 2 GB without a line in it: it is refused by its first bytes."""
    path = tools.work / "huge.csv"
    with open(path, "wb") as file:
        file.truncate(2 << 30)
    out, err, status = tools.call("fttmodel", "500", "1000", "huge.csv", "out")
    cases.case("fttmodel: refuses 2 GB of bytes of 0", status == 2 and not out and "huge.csv:1: the file has bytes of 0" in err,
               out + err)
    with open(path, "wb") as file:
        file.write(b"name,sender,length,period\n" + b"# " + b"x" * 5000 + b"\n")
        file.truncate(2 << 30)
    out, err, status = tools.call("fttmodel", "500", "1000", "huge.csv", "out")
    cases.case("fttmodel: refuses 2 GB", status == 2 and not out and "has more than 64 MiB" in err, out + err)
    path.unlink()


def check(model, tools):
    """All of them."""
    amounts(model)
    encodings(model)
    quotes(model)
    huge(tools)
