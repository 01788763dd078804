"""Designs that stay as they are where messages come and go: slots of a list, --keep, and identifiers of 29 bits."""
from .cases import case

HEAD = "name,sender,length,period,id,kind\n"
# By identifiers a is in slot 0, c in 1 and e in 2, and q has 0x200; the senders are the nodes 0, 1 and 2.
OLD = f"{HEAD}a,x,8,10,0x10,\nc,y,4,20,0x12,\ne,z,2,40,0x14,\nq,z,8,50,0x300,async\n"
# b comes in front of c, and a is gone; its sender comes first, and that of e is gone.
NEW = f"{HEAD}b,w,8,10,0x11,\nc,y,4,20,0x12,\np,w,8,50,0x290,async\nq,x,8,50,0x300,async\ne,x,2,40,0x14,\n"


def names(tools, folder):
    """What names.csv says: slots and identifiers by names, and nodes by senders."""
    rows = [row.split(",") for row in (tools.work / folder / "names.csv").read_text().splitlines()[1:]]
    return {row[1]: row[0] for row in rows}, {row[2]: int(row[3]) for row in rows}


def made(tools, text, folder, *options):
    """A call of fttmodel on a list."""
    tools.put("list.csv", text)
    return tools.call("fttmodel", "500", "1000", "list.csv", folder, *options)


def kept(tools):
    """--keep: nobody is renumbered."""
    made(tools, OLD, "old", "--renumber")
    case("--keep: the first design", names(tools, "old") == ({"a": "0", "c": "1", "e": "2", "q": "0x200"},
                                                             {"x": 0, "y": 1, "z": 2}), names(tools, "old"))
    made(tools, NEW, "moved", "--renumber")
    case("--keep: without it slots, nodes and identifiers move", names(tools, "moved") == (
        {"b": "0", "c": "1", "e": "2", "p": "0x200", "q": "0x201"}, {"w": 0, "y": 1, "x": 2}), names(tools, "moved"))
    out, err, status = made(tools, NEW, "new", "--renumber", "--keep", "old/names.csv")
    # slot 0 was that of a, and 3 is the first one that nobody had; node 3 is the first that no sender had
    case("--keep: slots, nodes and identifiers stay, and new ones are given", status < 2 and names(tools, "new") == (
        {"b": "3", "c": "1", "e": "2", "p": "0x201", "q": "0x200"}, {"w": 3, "y": 1, "x": 0}), f"{out}{err}{names(tools, 'new')}")
    case("--keep: what came and went", "kept: 3 of 4 messages of old/names.csv; new: b in slot 3; gone: a from slot 0\n" in out, out)
    steps = (tools.work / "new/steps.csv").read_text()
    case("--keep: the steps", steps == "add,1,0,1,1,4,0,20,20,0\nand,add,2,0,2,0,40,40,0\nand,add,3,3,8,0,10,10,0\ncycle,40\n"
         and "nodes = 4\n" in (tools.work / "new/system.toml").read_text(), steps)
    # three have slots, and 37 more fill 40: the last one gets that of the message that is gone
    many = "".join(f"m{at},x,0,100,{0x100 + at},\n" for at in range(37))
    out, err, status = made(tools, f"{NEW}{many}", "full", "--renumber", "--keep", "old/names.csv")
    case("--keep: a slot of a message that is gone is taken again where no other is left", status < 2 and
         names(tools, "full")[0]["m36"] == "0" and "so slot 0 of a message that is gone is taken again" in out, f"{out}{err}")
    for name, text, part in (("a list", OLD, "names.csv:1: this is no names.csv of fttmodel"),
                             ("a slot that is none", "slot_or_id,name,sender,node\n96,a,x,0\n", "names.csv:2: slot_or_id is '96'"),
                             ("a node that is none", "slot_or_id,name,sender,node\n1,a,x,30\n", "names.csv:2: node is '30'")):
        tools.put("names.csv", text)
        out, err, status = made(tools, OLD, "none", "--keep", "names.csv")
        case(f"--keep: refuses {name}", status == 2 and part in err and not (tools.work / "none").exists(), out + err)
    out, err, status = made(tools, OLD, "none", "--keep", "no.csv")
    case("--keep: a file that is not there", status == 3 and err.startswith("no.csv: "), err)


def slots(tools):
    """A column of slots."""
    head = "name,sender,length,period,slot,kind\n"
    out, err, status = made(tools, f"{head}a,x,8,10,,\nb,x,4,20,5,\nc,x,2,40,0,\nd,x,1,40,,\n", "given")
    case("slots of a list: the others get the lowest that are free", status == 0 and names(tools, "given")[0] == {
        "c": "0", "a": "1", "d": "2", "b": "5"}, out + err)
    steps = (tools.work / "given/steps.csv").read_text()
    case("slots of a list: the steps", steps == "add,1,0,0,0,2,0,40,40,0\nand,add,1,0,8,0,10,10,0\nand,add,2,0,1,0,40,40,0\n"
                                                "and,add,5,0,4,0,20,20,0\ncycle,40\n", steps)
    for name, rows, part, options in (
            ("one slot twice", "a,x,8,10,3,\nb,x,8,10,3,\n", "list.csv:3: slot is '3': it stands in line 2 too.", ()),
            ("slot 96", "a,x,8,10,96,\n", "list.csv:2: slot is '96': this is no number from 0 to 95.", ()),
            ("slot 40 of 40", "a,x,8,10,40,\n", "list.csv:2: slot is '40': there are 40 slots, from 0 on. Take --slots 96.", ()),
            ("a slot of an asynchronous message", "a,x,8,10,1,async\n", "list.csv:2: slot is '1': an asynchronous message has", ()),
            ("another slot than the kept one", "c,x,8,10,7,\n", "list.csv:2: slot is '7': old/names.csv has 1 for c.",
             ("--keep", "old/names.csv"))):
        out, err, status = made(tools, head + rows, "none", *options)
        case(f"slots of a list: refuses {name}", status == 2 and part in err, out + err)
    _, _, status = made(tools, f"{head}a,x,8,10,40,\n", "wide", "--slots", "96")
    case("slots of a list: slot 40 of 96", status == 0 and names(tools, "wide")[0] == {"a": "40"})


def wide(tools):
    """Identifiers of 29 bits in a list, and in the list of a DBC file."""
    rows = f"{HEAD}a,x,8,10,0x18fef100,\nb,x,8,20,0CF00400x,\nc,x,8,50,0x18ea0000,async\nd,x,8,50,0x200,async\n"
    out, err, status = made(tools, rows, "wide", "--map", "--dbc")
    text = (tools.work / "wide/names.csv").read_text() if status < 2 else ""
    # 0x0cf00400 is below 0x18fef100, and 0x200 is taken
    case("--map: 29 bits in a list", status < 2 and "0,b,x,0,20,20,0x0cf00400,sync,20\n1,a,x,0,10,10,0x18fef100,sync,10\n" in text
         and "0x201,c,x,0,,50,0x18ea0000,async,\n" in text and "0x200,d,x,0,,50,0x200,async,\n" in text, out + err + text)
    _, err, status = made(tools, rows, "none")
    case("--map: without it 29 bits are refused", status == 2 and "list.csv:2: id is '0x18fef100': this is above 0x7ff." in err
         and "or let --map do so" in err, err)
    out, err, status = tools.call("fttmodel", "--from-dbc", str(tools.cases / "dbc/isobus.dbc"), "--map")
    case("--from-dbc: times of the file stand beside what is made of them", status == 0 and out.startswith(
        "id,name,sender,length,period,deadline,offset,kind,#cycle_ms,#fast_ms,#delay_ms,#start_ms,#send_type\n"
        "0x0cf004fe,EEC1,Tecu,8,20,,,sync,20,,,,\n"), out + err)
    _, err, status = made(tools, out, "again", "--map")
    case("--from-dbc: its list is taken by --map", status == 0 and names(tools, "again")[0] == {
        "Own": "0", "EEC1": "1", "CCVS": "2", "Request": "0x200"}, err)
    out, err, status = tools.call("fttmodel", "--from-dbc", str(tools.cases / "dbc/silent.dbc"))
    case("--from-dbc: the cycle time of an event is not lost", status == 0 and
         "0x300,Warn,Tecu,1,,,,async,100,,,,NoMsgSendType\n" in out and "the cycle times of Warn, which are sent on events, stand "
         "in the column #cycle_ms" in err, out + err)


def check(tools):
    """All of them."""
    kept(tools)
    slots(tools)
    wide(tools)
