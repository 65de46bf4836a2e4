-- Shows the frames of a capture that `tools/frame pcap` wrote, in Wireshark and in tshark:
--
--     tshark -X lua_script:tools/speedlight.lua -r run.pcapng
--
-- The layout is that of docs/FORMATS.md. What is no frame is flagged with the program's name of it, E1 to E5, and what an
-- ingress unit would drop with why.

local speedlight = Proto("speedlight", "speedlight")
local KINDS = { [0] = "plain", [1] = "carried", [2] = "probe", [3] = "initiation" }
local NARROW = 8
local ANY_BITS = 16

local fields = {
    kind = ProtoField.uint8("speedlight.kind", "Kind", base.DEC, KINDS),
    channel = ProtoField.uint8("speedlight.channel", "Channel: port of the sending unit"),
    id = ProtoField.uint16("speedlight.id", "Id: the sender's number, wrapped"),
    src = ProtoField.uint16("speedlight.src", "Source: place of the host"),
    dst = ProtoField.uint16("speedlight.dst", "Destination: place of the host"),
    seq = ProtoField.uint32("speedlight.seq", "Number in its flow"),
    len = ProtoField.uint16("speedlight.len", "Length: bytes of the packet"),
    hops = ProtoField.uint8("speedlight.hops", "Hops left"),
    version = ProtoField.uint8("speedlight.version", "Version"),
    check = ProtoField.uint16("speedlight.check", "Check"),
    reserved = ProtoField.bytes("speedlight.reserved", "Reserved"),
    bytes = ProtoField.bytes("speedlight.bytes", "Bytes that are no frame"),
    link = ProtoField.string("speedlight.link", "Link"),
    number = ProtoField.uint32("speedlight.number", "The sender's number, whole"),
    lost = ProtoField.bool("speedlight.lost", "Lost"),
    refusal = ProtoField.string("speedlight.refusal", "Refused by decode"),
    drop = ProtoField.string("speedlight.drop", "Dropped by its unit"),
}
speedlight.fields = fields
local no_frame = ProtoExpert.new("speedlight.no_frame", "no frame", expert.group.MALFORMED, expert.severity.ERROR)
local dropped = ProtoExpert.new("speedlight.dropped", "a unit drops it", expert.group.PROTOCOL, expert.severity.WARN)
local lost_frame = ProtoExpert.new("speedlight.lost_frame", "lost on its link", expert.group.SEQUENCE, expert.severity.WARN)
speedlight.experts = { no_frame, dropped, lost_frame }
speedlight.prefs.bits = Pref.uint("Bits of an id, where the capture doesn't say", ANY_BITS, "1 to 16")

local interface_name = Field.new("frame.interface_name")
local interface_about = Field.new("frame.interface_description")
local comment = Field.new("frame.comment")

-- Each field: its name, first byte and length.
local LAYOUT = {
    { "kind", 0, 1 }, { "channel", 1, 1 }, { "id", 2, 2 }, { "src", 4, 2 }, { "dst", 6, 2 }, { "seq", 8, 4 },
    { "len", 12, 2 }, { "hops", 14, 1 }, { "version", 15, 1 }, { "check", 16, 2 }, { "reserved", 18, 6 },
}

local function value_of(field, or_else)
    local found = field()
    return found and tostring(found) or or_else
end

-- The first reason why the bytes are no frame: its name, and what is wrong. The order is that of tools/frame.
local function refusal_of(value, reserved, bits)
    local plain, between = value.kind == 0, value.kind == 1 or value.kind == 2
    if value.kind > 3 then return "E2", "kind is " .. value.kind .. ": 0 to 3 are kinds" end
    if value.version ~= 1 and (plain or value.version ~= 2) then
        return "E2", "version is " .. value.version .. (plain and ": a plain frame has version 1" or ": 1 and 2 are versions")
    end
    local most = 0
    if not plain then most = 2 ^ ((value.version == 1 and bits > NARROW) and NARROW or bits) - 1 end
    if value.id > most then return "E3", string.format("id is %d: 0 to %d is allowed", value.id, most) end
    if plain and value.channel ~= 0 then return "E4", "channel is " .. value.channel .. ": a plain frame has 0" end
    if between and value.channel > 7 then return "E4", "channel is " .. value.channel .. ": 0 to 7 are ports" end
    if value.kind == 3 and value.channel ~= 255 then return "E4", "channel is " .. value.channel .. ": an initiation has 255" end
    if value.kind > 1 then
        for _, name in ipairs({ "src", "dst", "seq", "len", "hops" }) do
            if value[name] ~= 0 then return "E4", name .. " is " .. value[name] .. ": it is 0 in a frame of this kind" end
        end
    end
    if reserved ~= "000000000000" then return "E4", "reserved is " .. reserved .. ": it is 0" end
    local wanted = value.version == 2 and 65535 - value.id or 0
    if value.check ~= wanted then
        return value.version == 2 and "E5" or "E4", string.format("check is %d: with this id it is %d", value.check, wanted)
    end
    return nil
end

-- Why the unit at the end of the link drops the frame, as far as the frame tells.
local function drop_of(sort, value, refusal)
    if sort == "host" and (refusal or value.kind ~= 0) then return "bad: from a host an ingress unit takes plain frames alone" end
    if refusal then return nil end
    if (sort == "host" or sort == "cable") and value.kind < 2 and value.hops == 0 then return "expired: no hops are left" end
    return nil
end

local function info_of(value)
    local words = KINDS[value.kind]
    if value.kind < 2 then
        words = string.format("%s %d > %d, packet %d, %d bytes, hops %d", words, value.src, value.dst, value.seq, value.len, value.hops)
    end
    if value.kind > 0 then words = string.format("%s, id %d", words, value.id) end
    return words
end

-- What the tool wrote beside the frame: what became of it, and the whole number that its id stands for.
local function add_told(tree, told)
    local number = told:match("number (%d+)")
    if number then tree:add(fields.number, tonumber(number)):set_generated() end
    local is_lost = told:match("^lost") ~= nil
    local shown = tree:add(fields.lost, is_lost):set_generated()
    if is_lost then shown:add_proto_expert_info(lost_frame) end
    return is_lost
end

function speedlight.dissector(buffer, packet, root)
    packet.cols.protocol = "speedlight"
    local about, told = value_of(interface_about, ""), value_of(comment, "")
    local sort, bits = about:match("^(%w+),"), tonumber(about:match("ids of (%d+) bits")) or speedlight.prefs.bits
    local tree = root:add(speedlight, buffer())
    tree:add(fields.link, value_of(interface_name, "?")):set_generated()
    local from, to = about:match("from (.-) to (.-);")
    if from then packet.cols.src, packet.cols.dst = from, to end
    local value, refusal, why = {}, nil, nil
    if buffer:len() == 24 then
        for _, field in ipairs(LAYOUT) do
            local name, part = field[1], buffer(field[2], field[3])
            if name ~= "reserved" then value[name] = part:uint() end
            tree:add(fields[name], part)
        end
        refusal, why = refusal_of(value, buffer(18, 6):bytes():tohex(true), bits)
    else
        refusal, why = "E1", "a frame has 24 bytes, and these are " .. buffer:len()
        if buffer:len() > 0 then tree:add(fields.bytes, buffer()) end
    end
    local words = refusal and ("no frame, " .. refusal .. ": " .. why) or info_of(value)
    if refusal then
        tree:add(fields.refusal, refusal .. ": " .. why):set_generated():add_proto_expert_info(no_frame, refusal .. ": " .. why)
    end
    local drop = drop_of(sort, value, refusal) or told:match("dropped, (%w+: [^;]*)")
    if drop then
        tree:add(fields.drop, drop):set_generated():add_proto_expert_info(dropped, "a unit drops it, " .. drop)
        words = words .. " [dropped, " .. drop:match("%w+") .. "]"
    end
    if add_told(tree, told) then words = words .. " [lost]" end
    packet.cols.info = words
    return buffer:len()
end

DissectorTable.get("wtap_encap"):add(wtap.USER0, speedlight)
