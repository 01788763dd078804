-- Wireshark's dissector for the frames of FTT-CAN: triggers and synchronous messages.
--
--     wireshark -X lua_script:tools/fttcan.lua FILE
--     tshark -X lua_script:tools/fttcan.lua -O fttcan -r FILE
--
-- The trigger has identifier 0x000, and its second frame, which a system of 96 slots has, 0x001. Slot s sends with
-- identifier 0x100 + s. docs/FORMATS.md has the bytes. docs/tools.md says how this file is loaded and what of it was
-- tried. Any Lua from 5.1 on can load it without Wireshark: then it gives the table of its decoders, and registers
-- nothing.
--
-- This program is a help for readers. Nothing of it is proved, and nothing that is proved rests on it.

local FIRST_TRIGGER, SECOND_TRIGGER, FIRST_SLOT = 0x000, 0x001, 0x100
local LOW_SLOTS, SLOTS = 40, 96

-- The bit of this number in a byte, 0 being the least significant.
local function bit_of(byte, number)
    return math.floor(byte / 2 ^ number) % 2
end

-- The slots that some bytes flag: bit b of byte k is slot first + 8 k + b.
local function flags_of(bytes, from, first)
    local slots = {}
    for at = from, #bytes do
        for number = 0, 7 do
            if bit_of(bytes[at], number) == 1 then
                slots[#slots + 1] = first + 8 * (at - from) + number
            end
        end
    end
    return slots
end

-- The first trigger frame, from its eight bytes: the cycle modulo 256, the window in bit times, the slots below 40.
-- Nothing where there are not eight bytes.
local function first_trigger(bytes)
    if #bytes ~= 8 then
        return nil
    end
    return { cycle = bytes[1], window = bytes[2] * 256 + bytes[3], slots = flags_of(bytes, 4, 0) }
end

-- The second trigger frame, from its eight bytes: the cycle modulo 256, and the slots from 40 on.
local function second_trigger(bytes)
    if #bytes ~= 8 then
        return nil
    end
    return { cycle = bytes[1], slots = flags_of(bytes, 2, LOW_SLOTS) }
end

-- The slot of an identifier; nothing where it is that of none.
local function slot_of(identifier, slots)
    local slot = identifier - FIRST_SLOT
    return slot >= 0 and slot < slots and slot or nil
end

-- The number of an instance, of which a frame has the low bytes, as a text of hexadecimal digits: its bytes, the most
-- significant first.
local function instance_of(bytes)
    local text = {}
    for at = 1, #bytes do
        text[at] = string.format("%02x", bytes[at])
    end
    return table.concat(text)
end

-- The next cycle with this number modulo 256, from the cycle that was counted before on.
local function counted(before, cycle)
    return before == nil and cycle or before + (cycle - before) % 256
end

-- Numbers with commas.
local function listed(slots)
    return #slots == 0 and "none" or table.concat(slots, ", ")
end

local decoders = {
    first_trigger = first_trigger, second_trigger = second_trigger, slot_of = slot_of, instance_of = instance_of,
    counted = counted, listed = listed,
}

-- Whether Wireshark loads this file.
if not (Proto and DissectorTable) then
    return decoders
end

local fttcan = Proto("fttcan", "Flexible Time-Triggered CAN")
local fields = {
    trigger = ProtoField.uint8("fttcan.trigger", "Trigger frame", base.DEC, nil, nil, "1, or 2 for the second one"),
    cycle = ProtoField.uint8("fttcan.cycle", "Cycle modulo 256", base.DEC),
    counted = ProtoField.uint32("fttcan.counted", "Elementary cycle, counted on from the first trigger", base.DEC),
    window = ProtoField.uint16("fttcan.window", "Synchronous window", base.DEC, nil, nil, "in bit times"),
    slots = ProtoField.string("fttcan.slots", "Slots"),
    flagged = ProtoField.uint8("fttcan.flagged", "Flagged slot", base.DEC),
    slot = ProtoField.uint8("fttcan.slot", "Slot", base.DEC),
    instance = ProtoField.string("fttcan.instance", "Instance, its low bytes"),
}
fttcan.fields = fields
local unflagged = ProtoExpert.new("fttcan.unflagged", "the last trigger does not flag this slot", expert.group.SEQUENCE,
    expert.severity.WARN)
local torn = ProtoExpert.new("fttcan.torn", "the second trigger frame is of another cycle than the first",
    expert.group.SEQUENCE, expert.severity.WARN)
fttcan.experts = { unflagged, torn }
fttcan.prefs.slots = Pref.enum("Slots", 96, "How many slots the system has: bus.slots of its file",
    { { 1, "40", 40 }, { 2, "96", 96 } }, false)

-- What was heard up to a packet: the counted cycle, its number modulo 256, and the flagged slots. By packet what it
-- heard, since packets are looked at again in any order.
local heard, by_packet = nil, {}

function fttcan.init()
    heard, by_packet = nil, {}
end

-- How many slots the system has.
local function slots_of_system()
    return fttcan.prefs.slots == 40 and LOW_SLOTS or SLOTS
end

-- The bytes of a buffer as numbers.
local function bytes_of(buffer)
    local bytes = {}
    for at = 0, buffer:len() - 1 do
        bytes[at + 1] = buffer(at, 1):uint()
    end
    return bytes
end

-- What is heard with the first trigger frame of a cycle.
local function hear_first(found)
    local slots = {}
    for _, slot in ipairs(found.slots) do
        slots[slot] = true
    end
    local before = heard and heard.counted
    return { counted = counted(before, found.cycle), cycle = found.cycle, slots = slots }
end

-- What is heard with the second one: its slots too, where it is of the same cycle.
local function hear_second(found)
    if heard == nil or heard.cycle ~= found.cycle then
        return { counted = heard and heard.counted, cycle = found.cycle, slots = {}, torn = true }
    end
    local both = { counted = heard.counted, cycle = heard.cycle, slots = {} }
    for slot in pairs(heard.slots) do
        both.slots[slot] = true
    end
    for _, slot in ipairs(found.slots) do
        both.slots[slot] = true
    end
    return both
end

-- Shows the flagged slots, each as a field of its own below the list.
local function show_slots(tree, buffer, found, from)
    local list = tree:add(fields.slots, buffer(from), listed(found.slots))
    for _, slot in ipairs(found.slots) do
        list:add(fields.flagged, buffer(from), slot)
    end
end

-- Shows a trigger frame.
local function show_trigger(buffer, pinfo, tree, number, found)
    local packet = by_packet[pinfo.number]
    local branch = tree:add(fttcan, buffer(), number == 1 and "FTT-CAN trigger" or "FTT-CAN trigger, second frame")
    branch:add(fields.trigger, buffer(), number):set_generated()
    branch:add(fields.cycle, buffer(0, 1))
    if packet and packet.counted then
        branch:add(fields.counted, buffer(0, 1), packet.counted):set_generated()
    end
    if number == 1 then
        branch:add(fields.window, buffer(1, 2))
    elseif packet and packet.torn then
        branch:add_proto_expert_info(torn)
    end
    show_slots(branch, buffer, found, number == 1 and 3 or 1)
    local window = number == 1 and string.format(", window %d", found.window) or ""
    pinfo.cols.info = string.format("Trigger %d, cycle %d%s, slots %s", number, found.cycle, window,
        listed(found.slots))
end

-- Shows a synchronous frame.
local function show_slot(buffer, pinfo, tree, slot)
    local packet = by_packet[pinfo.number]
    local branch = tree:add(fttcan, buffer(), "FTT-CAN synchronous message")
    branch:add(fields.slot, buffer(), slot):set_generated()
    local cycle = "before the first trigger"
    if packet and packet.counted then
        cycle = string.format("cycle %d", packet.counted)
        branch:add(fields.counted, buffer(), packet.counted):set_generated()
        branch:add(fields.cycle, buffer(), packet.cycle):set_generated()
        if not packet.slots[slot] then
            branch:add_proto_expert_info(unflagged)
        end
    end
    if buffer:len() > 0 then
        branch:add(fields.instance, buffer(), instance_of(bytes_of(buffer)))
    end
    pinfo.cols.info = string.format("Slot %d, %s", slot, cycle)
end

function fttcan.dissector(buffer, pinfo, tree)
    local identifier, slots = pinfo.match_uint, slots_of_system()
    local slot, number, found = slot_of(identifier, slots), nil, nil
    if identifier == FIRST_TRIGGER then
        number, found = 1, first_trigger(bytes_of(buffer))
    elseif identifier == SECOND_TRIGGER and slots == SLOTS then
        number, found = 2, second_trigger(bytes_of(buffer))
    end
    if not found and not slot then
        return 0
    end
    if not pinfo.visited then
        if found then
            heard = number == 1 and hear_first(found) or number == 2 and hear_second(found)
        end
        by_packet[pinfo.number] = heard
    end
    pinfo.cols.protocol = "FTT-CAN"
    if found then
        show_trigger(buffer, pinfo, tree, number, found)
    else
        show_slot(buffer, pinfo, tree, slot)
    end
    return buffer:len()
end

local identifiers = DissectorTable.get("can.id")
identifiers:add(FIRST_TRIGGER, fttcan)
identifiers:add(SECOND_TRIGGER, fttcan)
for slot = 0, SLOTS - 1 do
    identifiers:add(FIRST_SLOT + slot, fttcan)
end
return decoders
