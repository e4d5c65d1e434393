-- A Wireshark dissector for LBP16, the register protocol of Mesa cards on UDP port 27181.
-- Requests are taken apart command by command, replies by their request. What docs/RULES.md refuses is marked with the number and
-- the sentence of its table, but for refusal 1, which is of a card's memory and not of a packet.

local PORT = 27181
local LIMIT = 1472
local UNLOCK_ADDRESS, UNLOCK_VALUE = 0x1A, 0x5A02
local INFO_BYTES = 16

-- The spaces; `bytes`, `element` and `code` of those that the rules have, and the address from which on they are written.
local SPACES = {
    [0] = { name = "registers", bytes = 65536, element = 4, code = 2, written = 0 },
    [1] = { name = "Ethernet chip" },
    [2] = { name = "EEPROM", bytes = 128, element = 2, code = 1, written = 0x20, locked = true },
    [3] = { name = "FPGA flash" },
    [4] = { name = "timers" },
    [5] = { name = "space 5" },
    [6] = { name = "status", bytes = 32, element = 2, code = 1, written = 0 },
    [7] = { name = "information", bytes = 32, element = 2, code = 1, written = 32 },
}

-- The sentences of crates/sentence/specs/Sentence.antt.
local SENTENCES = {
    [2] = "the packet is above 1,472 bytes",
    [3] = "command word or its address cut off",
    [4] = "info bit set in a write",
    [5] = "the card has no such space",
    [6] = "element size not the space's, or not 2 bytes in an info read",
    [7] = "count 0, no element is named",
    [8] = "address not a multiple of the element size, or an element past the end of the space or info area",
    [9] = "a write to read-only cells, any of space 7 or those of space 2 below 0x20",
    [10] = "a write to space 2 while the unlock is closed",
    [11] = "write data cut off",
    [12] = "the reply would pass 1,472 bytes",
}

-- Cells that the manuals name, by space and address.
local CELLS = {
    [0] = { [0x100] = "HostMot2 cookie" },
    [2] = { [0x00] = "reserved", [0x02] = "MAC address, low word", [0x04] = "MAC address, middle word", [0x06] = "MAC address, high word",
        [0x20] = "IP address, low word", [0x22] = "IP address, high word", [0x24] = "netmask, low word", [0x26] = "netmask, high word",
        [0x28] = "debug LED mode" },
    [3] = { [0x0] = "FL_ADDR", [0x4] = "FL_DATA", [0x8] = "FL_ID", [0xC] = "SEC_ERASE" },
    [4] = { [0x0] = "uSTimeStampReg", [0x2] = "WaituSReg", [0x4] = "HM2Timeout", [0x6] = "WaitForHM2RefTime", [0x8] = "WaitForHM2Timer1",
        [0xA] = "WaitForHM2Timer2", [0xC] = "WaitForHM2Timer3", [0xE] = "WaitForHM2Timer4" },
    [6] = { [0x00] = "ErrorReg", [0x02] = "LBPParseErrors", [0x04] = "LBPMemErrors", [0x06] = "LBPWriteErrors", [0x08] = "RXPktCount",
        [0x0A] = "RXUDPCount", [0x0C] = "RXBadCount", [0x0E] = "TXPktCount", [0x10] = "TXUDPCount", [0x12] = "TXBadCount",
        [0x14] = "LEDMode", [0x16] = "DebugLEDPtr", [0x18] = "Scratch", [0x1A] = "EEPROMWEna", [0x1C] = "LBPReset", [0x1E] = "FPGAICAP" },
    [7] = { [0x10] = "LBPVersion", [0x12] = "FirmwareVersion", [0x14] = "option jumpers", [0x16] = "reserved", [0x18] = "RecvStartTS",
        [0x1A] = "RecvDoneTS", [0x1C] = "SendStartTS", [0x1E] = "SendDoneTS" },
}
local INFO_CELLS = { [0x0] = "cookie", [0x2] = "memory sizes", [0x4] = "memory ranges", [0x6] = "address pointer" }
local MEMORY_TYPES = { [0x01] = "registers", [0x02] = "memory", [0x0E] = "EEPROM", [0x0F] = "flash" }

-- The card's name stands in two spaces, two characters in each cell.
for k = 0, 7 do
    local name = string.format("card name, characters %d and %d", 2 * k, 2 * k + 1)
    CELLS[2][0x10 + 2 * k] = name
    CELLS[7][2 * k] = name
end
for k = 0, 3 do
    INFO_CELLS[8 + 2 * k] = string.format("space name, characters %d and %d", 2 * k, 2 * k + 1)
end

local lbp16 = Proto("lbp16", "LBP16 register access")

local SIZES = { [0] = "1 byte", [1] = "2 bytes", [2] = "4 bytes", [3] = "8 bytes" }
local SPACE_NAMES = {}
for n = 0, 7 do SPACE_NAMES[n] = SPACES[n].name end

local f = {
    request_in = ProtoField.framenum("lbp16.request_in", "Request in frame", base.NONE, frametype.REQUEST),
    reply_in = ProtoField.framenum("lbp16.reply_in", "Reply in frame", base.NONE, frametype.RESPONSE),
    command = ProtoField.bytes("lbp16.command", "Command"),
    word = ProtoField.uint16("lbp16.word", "Command word", base.HEX),
    write = ProtoField.bool("lbp16.write", "Write", 16, nil, 0x8000),
    given = ProtoField.bool("lbp16.address_given", "Address follows", 16, nil, 0x4000),
    info = ProtoField.bool("lbp16.info", "Info area", 16, nil, 0x2000),
    space = ProtoField.uint16("lbp16.space", "Space", base.DEC, SPACE_NAMES, 0x1C00),
    size = ProtoField.uint16("lbp16.size", "Element size", base.DEC, SIZES, 0x0300),
    increment = ProtoField.bool("lbp16.increment", "Increment", 16, nil, 0x0080),
    count = ProtoField.uint16("lbp16.count", "Count", base.DEC, nil, 0x007F),
    address = ProtoField.uint16("lbp16.address", "Address", base.HEX),
    pointer = ProtoField.uint32("lbp16.pointer", "Address from the pointer", base.HEX),
    value = {
        [0] = ProtoField.uint8("lbp16.value8", "Value", base.HEX),
        [1] = ProtoField.uint16("lbp16.value16", "Value", base.HEX),
        [2] = ProtoField.uint32("lbp16.value32", "Value", base.HEX),
        [3] = ProtoField.uint64("lbp16.value64", "Value", base.HEX),
    },
    left = ProtoField.bytes("lbp16.left", "Bytes of no command"),
    number = ProtoField.uint8("lbp16.refused", "Refused"),
    place = ProtoField.uint16("lbp16.refused_at", "Refused at"),
}
lbp16.fields = { f.request_in, f.reply_in, f.command, f.word, f.write, f.given, f.info, f.space, f.size, f.increment, f.count, f.address,
    f.pointer, f.value[0], f.value[1], f.value[2], f.value[3], f.left, f.number, f.place }

local e = {
    length = ProtoExpert.new("lbp16.length", "The reply has another length than its request asks for", expert.group.PROTOCOL,
        expert.severity.WARN),
    answered = ProtoExpert.new("lbp16.answered", "A reply to a packet that the rules refuse", expert.group.PROTOCOL, expert.severity.WARN),
    alone = ProtoExpert.new("lbp16.alone", "A reply with no request before it", expert.group.SEQUENCE, expert.severity.WARN),
    snapped = ProtoExpert.new("lbp16.snapped", "Not wholly captured: not judged", expert.group.UNDECODED, expert.severity.NOTE),
}
local experts = { e.length, e.answered, e.alone, e.snapped }
for number = 2, 12 do
    e[number] = ProtoExpert.new("lbp16.refused." .. number, SENTENCES[number], expert.group.PROTOCOL, expert.severity.ERROR)
    table.insert(experts, e[number])
end
lbp16.experts = experts

-- Of the file that is open: what was found of each request and reply, by frame, and the last request of each card and stream. `cards` has
-- the pointers as the packets so far leave them.
local requests, replies, cards, streams = {}, {}, {}, {}

function lbp16.init()
    requests, replies, cards, streams = {}, {}, {}, {}
end

local function fresh()
    return { plain = { [0] = 0, [2] = 0, [6] = 0, [7] = 0 }, info = { [0] = 0, [2] = 0, [6] = 0, [7] = 0 } }
end

local function copied(p)
    local c = fresh()
    for n in pairs(c.plain) do
        c.plain[n], c.info[n] = p.plain[n], p.info[n]
    end
    return c
end

local function bits(word, low, width)
    return math.floor(word / 2 ^ low) % math.floor(2 ^ width)
end

-- The command at a place. Of a word that is cut off all fields are 0.
local function command_at(tvb, place, length)
    local left = length - place
    local w = left < 2 and 0 or tvb(place, 2):le_uint()
    local c = { place = place, left = left, word = left >= 2 }
    c.write, c.given, c.info = bits(w, 15, 1) == 1, bits(w, 14, 1) == 1, bits(w, 13, 1) == 1
    c.space, c.size, c.increment, c.count = bits(w, 10, 3), bits(w, 8, 2), bits(w, 7, 1) == 1, bits(w, 0, 7)
    c.header = c.given and 4 or 2
    c.element = math.floor(2 ^ c.size)
    if c.given and left >= 4 then
        c.address = tvb(place + 2, 2):le_uint()
    end
    return c
end

-- The table's line for a command: an info area has elements of 2 bytes and is read only.
local function row_of(c)
    local s = SPACES[c.space]
    if c.info and s.bytes then
        return { bytes = INFO_BYTES, element = 2, code = 1, written = 0 }
    end
    return s
end

local function pointers_of(p, c)
    return (c.info and not c.write) and p.info or p.plain
end

-- The lowest refusal of a command, from 3 to 12, or nothing. `reply`: the reply's bytes so far.
local function refusal_of(c, unlocked, reply)
    local row = row_of(c)
    local cells = c.count * c.element
    if c.left < c.header then return 3 end
    if c.info and c.write then return 4 end
    if not row.bytes then return 5 end
    if c.size ~= row.code then return 6 end
    if c.count == 0 then return 7 end
    local last = c.address + (c.increment and cells - c.element or 0)
    if c.address % c.element ~= 0 or last + c.element > row.bytes then return 8 end
    if c.write and c.address < row.written then return 9 end
    if c.write and row.locked and not unlocked then return 10 end
    if c.write and c.left < c.header + cells then return 11 end
    if not c.write and reply + cells > LIMIT then return 12 end
end

-- Each element written to the unlock cell opens or closes the unlock.
local function unlocked_after(tvb, c, unlocked)
    if c.write and c.space == 6 then
        for k = 0, c.count - 1 do
            if c.address + (c.increment and 2 * k or 0) == UNLOCK_ADDRESS then
                unlocked = tvb(c.place + c.header + 2 * k, 2):le_uint() == UNLOCK_VALUE
            end
        end
    end
    return unlocked
end

-- All commands of a packet from these pointers, and its refusal's number and place, if it has one. Commands behind a refused one are taken
-- apart as the manual lays them out, as far as their bytes go, and no rule is asked of them.
local function analysed(tvb, before)
    local length = tvb:len()
    local r = { commands = {}, pointers = before, snapped = length < tvb:reported_len() }
    local p, unlocked, reply, place = copied(before), false, 0, 0
    if length > LIMIT then
        r.number, r.place = 2, 0
    end
    while place < length do
        local c = command_at(tvb, place, length)
        table.insert(r.commands, c)
        local from = pointers_of(p, c)
        if not c.given and c.word then
            c.address, c.by_pointer = from[c.space], true
        end
        if not r.number and not r.snapped then
            local number = refusal_of(c, unlocked, reply)
            if number then
                r.number, r.place, c.number = number, place, number
            else
                unlocked = unlocked_after(tvb, c, unlocked)
            end
        end
        local cells = c.count * c.element
        if c.address and from[c.space] then
            from[c.space] = c.address + (c.increment and cells or 0)
        end
        if not c.write then
            reply = reply + cells
        end
        place = place + c.header + (c.write and cells or 0)
    end
    r.reply = reply
    if not r.number and not r.snapped then
        r.pointers = p
    end
    return r
end

local function name_of(c, address)
    local names = c.info and INFO_CELLS or CELLS[c.space] or {}
    return names[address]
end

-- "read registers 0x0100", "info read of EEPROM 0x0000, 8 elements"
local function said(c)
    if not c.word then
        return "word cut off"
    end
    local kind = (c.info and "info " or "") .. (c.write and "write" or "read") .. (c.info and " of " or " ") .. SPACES[c.space].name
    local where = " at the pointer"
    if c.address then
        where = string.format(" 0x%04X", c.address)
    elseif c.given then
        where = ", address cut off"
    end
    local many = c.count == 1 and "" or string.format(", %d elements%s", c.count, c.increment and "" or " without increment")
    return kind .. where .. many
end

local function sizes_said(v)
    local kinds = {}
    for k = 0, 3 do
        if bits(v, k, 1) == 1 then table.insert(kinds, tostring(math.floor(2 ^ k))) end
    end
    local type_name = MEMORY_TYPES[bits(v, 8, 7)] or string.format("type %d", bits(v, 8, 7))
    local sizes = #kinds > 0 and table.concat(kinds, ", ") or "0"
    return string.format("%s, %s, elements of %s bytes", bits(v, 15, 1) == 1 and "written" or "read only", type_name, sizes)
end

local function ranges_said(v)
    return string.format("2^%d bytes, pages of 2^%d, erased in 2^%d", bits(v, 0, 6), bits(v, 6, 5), bits(v, 11, 5))
end

local function printable(range)
    local text = ""
    for k = 0, range:len() - 1 do
        local b = range(k, 1):uint()
        if b ~= 0 then
            text = text .. ((b >= 32 and b < 127) and string.char(b) or ".")
        end
    end
    return text
end

-- A value's hexadecimal digits, the highest first.
local function digits(range)
    local text = ""
    for k = 0, range:len() - 1 do
        text = string.format("%02X", range(k, 1):uint()) .. text
    end
    return "0x" .. text
end

-- What a named cell's value means, where that can be said.
local function meaning(c, name, range)
    if not name or range:len() ~= 2 then
        return ""
    end
    local v = range:le_uint()
    if name:find("characters") then
        return ' ("' .. printable(range) .. '")'
    elseif c.info and name == "memory sizes" then
        return " (" .. sizes_said(v) .. ")"
    elseif c.info and name == "memory ranges" then
        return " (" .. ranges_said(v) .. ")"
    elseif c.space == 6 and name == "EEPROMWEna" and c.write then
        return v == UNLOCK_VALUE and " (opens the EEPROM's unlock)" or " (closes the EEPROM's unlock)"
    end
    return ""
end

-- The elements of a command, from `at` on, as far as there are bytes before `stop`; the place behind them.
local function put_values(tvb, at, stop, c, tree)
    for k = 0, c.count - 1 do
        if at + c.element > stop then
            if at < stop then
                tree:add(f.left, tvb(at, stop - at)):prepend_text("Cut off: ")
            end
            return stop
        end
        local range = tvb(at, c.element)
        local address = c.address and c.address + (c.increment and c.element * k or 0)
        local name = address and name_of(c, address)
        local where = address and string.format("0x%04X%s", address, name and " " .. name or "") or "Value"
        tree:add_le(f.value[c.size], range):set_text(where .. ": " .. digits(range) .. meaning(c, name, range))
        at = at + c.element
    end
    return at
end

local function put_fields(tvb, c, tree)
    local word = tvb(c.place, 2)
    local fields = tree:add_le(f.word, word)
    for _, name in ipairs { "write", "given", "info", "space", "size", "increment", "count" } do
        fields:add_le(f[name], word)
    end
    if c.given and c.address then
        tree:add_le(f.address, tvb(c.place + 2, 2))
    elseif c.by_pointer and c.address then
        tree:add(f.pointer, c.address):set_generated()
    end
end

local function put_command(tvb, c, tree)
    local bytes = c.header + (c.write and c.count * c.element or 0)
    local item = tree:add(f.command, tvb(c.place, math.min(bytes, c.left)))
    item:set_text(string.format("At %d: %s", c.place, said(c)))
    if c.word then
        put_fields(tvb, c, item)
    end
    if c.write and c.left > c.header then
        put_values(tvb, c.place + c.header, c.place + math.min(bytes, c.left), c, item)
    end
    if c.number then
        item:add_proto_expert_info(e[c.number], string.format("refused %d at %d: %s", c.number, c.place, SENTENCES[c.number]))
    end
end

local function put_refusal(r, tree)
    if r.snapped then
        tree:add_proto_expert_info(e.snapped)
    end
    if r.number then
        tree:add(f.number, r.number):append_text(": " .. SENTENCES[r.number]):set_generated()
        tree:add(f.place, r.place):set_generated()
        if r.number == 2 then
            tree:add_proto_expert_info(e[2], "refused 2 at 0: " .. SENTENCES[2])
        end
    end
end

local function summary(r)
    local most, words = 3, {}
    for k = 1, math.min(most, #r.commands) do
        table.insert(words, said(r.commands[k]))
    end
    local text = #words > 0 and table.concat(words, "; ") or "no commands"
    if #r.commands > most then
        text = text .. string.format("; and %d more commands", #r.commands - most)
    end
    if r.number then
        text = string.format("[refused %d at %d: %s] ", r.number, r.place, SENTENCES[r.number]) .. text
    end
    return "Request: " .. text
end

local function put_request(tvb, pinfo, tree, r)
    for _, c in ipairs(r.commands) do
        put_command(tvb, c, tree)
    end
    put_refusal(r, tree)
    if r.reply_in then
        tree:add(f.reply_in, r.reply_in):set_generated()
    end
    pinfo.cols.info:set(summary(r))
end

-- A reply has the elements that its request reads, in order.
local function put_reply(tvb, pinfo, tree, request)
    local at, length = 0, tvb:len()
    for _, c in ipairs(request.commands) do
        if not c.write and c.word and at < length then
            local bytes = math.min(c.count * c.element, length - at)
            if bytes > 0 then
                local item = tree:add(f.command, tvb(at, bytes))
                item:set_text(string.format("At %d: %s", at, said(c)))
                at = put_values(tvb, at, length, c, item)
            end
        end
    end
    if at < length then
        tree:add(f.left, tvb(at, length - at))
    end
    tree:add(f.request_in, request.frame):set_generated()
    if request.number then
        tree:add_proto_expert_info(e.answered, string.format("A reply to a packet that the rules refuse: %d at %d: %s", request.number,
            request.place, SENTENCES[request.number]))
    end
    if tvb:len() < tvb:reported_len() then
        tree:add_proto_expert_info(e.snapped)
    elseif length ~= request.reply and not request.snapped then
        tree:add_proto_expert_info(e.length, string.format("The reply has %d bytes, its request asks for %d", length, request.reply))
    end
    pinfo.cols.info:set(string.format("Reply to frame %d: %d bytes", request.frame, length))
end

-- A datagram to a card's port is a request, but for one that a card sends to a port of the same number.
local function is_request(pinfo, source, destination)
    return pinfo.dst_port == PORT and (pinfo.src_port ~= PORT or not cards[source] or cards[destination] ~= nil)
end

-- Once for each frame, in their order: a refused packet leaves the card's pointers as they were.
local function first_seen(tvb, pinfo)
    local source, destination = tostring(pinfo.src), tostring(pinfo.dst)
    if is_request(pinfo, source, destination) then
        local card = cards[destination] or { pointers = fresh() }
        local r = analysed(tvb, card.pointers)
        r.frame = pinfo.number
        card.pointers, card.last = r.pointers, r
        cards[destination], requests[pinfo.number] = card, r
        streams[source .. " " .. pinfo.src_port .. " " .. destination] = r
    else
        local card = cards[source]
        local request = streams[destination .. " " .. pinfo.dst_port .. " " .. source] or (card and card.last)
        if request and not request.reply_in then
            request.reply_in = pinfo.number
        end
        replies[pinfo.number] = { request = request }
    end
end

function lbp16.dissector(tvb, pinfo, tree)
    local number = pinfo.number
    if not requests[number] and not replies[number] then
        first_seen(tvb, pinfo)
    end
    pinfo.cols.protocol:set("LBP16")
    local top = tree:add(lbp16, tvb())
    if requests[number] then
        top:append_text(", request")
        put_request(tvb, pinfo, top, requests[number])
    elseif replies[number].request then
        top:append_text(", reply")
        put_reply(tvb, pinfo, top, replies[number].request)
    else
        top:append_text(", reply")
        top:add_proto_expert_info(e.alone)
        pinfo.cols.info:set(string.format("Reply to no request: %d bytes", tvb:len()))
    end
end

DissectorTable.get("udp.port"):add(PORT, lbp16)
