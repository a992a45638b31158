-- Wireshark dissectors of what TRILL frames carry: the options area (draft-ietf-trill-rbridge-options-03) or the header extension (RFC 7179),
-- and the RBridge Channel (RFC 7178) with its error messages and the echo messages of channel protocol 0xFF8.
--
--     tshark -X lua_script:staffripple.lua -r FILE -O trill_options,trill_channel
--
-- A frame does not say by which of the two its area is meant. It is shown as options; with -o trill_options.edition:2, as the switches of
-- edition 2 read it.
--
-- or put it into the folder that `tshark -G folders` calls Personal Lua Plugins.

local ETHERTYPE_TRILL, ETHERTYPE_CHANNEL = 0x22F3, 0x8946
local TRILL_HEADER, WORD, OPTION_HEADER, CHANNEL_HEADER, ECHO_HEADER = 6, 4, 2, 4, 18
local PROTOCOL_ERROR, PROTOCOL_ECHO = 0x001, 0xFF8
local SPID_REQUEST, SPID_REPLY = 3, 4

local ethertypes = DissectorTable.get("ethertype")
local trill_header = ethertypes:get_dissector(ETHERTYPE_TRILL)

-- ---- The options area ----

local options = Proto("trill_options", "TRILL options area")
local option_fields = {
    word = ProtoField.uint32("trill_options.word", "First word", base.HEX),
    chbh = ProtoField.bool("trill_options.chbh", "CHbH, critical hop-by-hop", 32, nil, 0x80000000),
    cite = ProtoField.bool("trill_options.cite", "CItE, critical ingress-to-egress", 32, nil, 0x40000000),
    bits = ProtoField.uint32("trill_options.bits", "Bit options", base.HEX, nil, 0x3FFFFFFF),
    option = ProtoField.bytes("trill_options.option", "Option"),
    ie = ProtoField.bool("trill_options.option.ie", "IE", 16, {"ingress-to-egress", "hop-by-hop"}, 0x8000),
    nc = ProtoField.bool("trill_options.option.nc", "NC", 16, {"not critical", "critical"}, 0x4000),
    kind = ProtoField.uint16("trill_options.option.type", "Type", base.HEX, nil, 0x3F00),
    mt = ProtoField.bool("trill_options.option.mt", "MT", 16, {"mutable", "immutable"}, 0x0080),
    length = ProtoField.uint16("trill_options.option.length", "Length", base.DEC, nil, 0x007F),
    data = ProtoField.bytes("trill_options.option.data", "Data"),
    padding = ProtoField.bytes("trill_options.option.padding", "Padding"),
}
-- Bit 0 is the highest.
local flag_fields = {
    {"crhbh", "CRHbH, some critical hop-by-hop extension", 0x80000000, true},
    {"crite", "CRItE, some critical ingress-to-egress extension", 0x40000000, true},
    {"crrsv", "CRRsv, some critical reserved extension", 0x20000000, true},
    {"chbh", "Critical hop-by-hop flags, bits 3 to 6", 0x1E000000},
    {"crcaf", "CRCAF, critical channel alert", 0x01000000, true},
    {"nccaf", "NCCAF, non-critical channel alert", 0x00800000, true},
    {"nchbh", "Non-critical hop-by-hop flags, bits 9 to 13", 0x007C0000},
    {"crsv", "Critical reserved flags, bits 14 to 16", 0x00038000},
    {"ncrsv", "Non-critical reserved flags, bits 17 to 20", 0x00007800},
    {"cite", "Critical ingress-to-egress flags, bits 21 to 26", 0x000007E0},
    {"ncite", "Non-critical ingress-to-egress flags, bits 27 to 31", 0x0000001F},
}
option_fields.flags = ProtoField.uint32("trill_options.flags", "Extended flags", base.HEX)
option_fields.extensions = ProtoField.bytes("trill_options.extensions", "Extensions, carried unread")
for _, flag in ipairs(flag_fields) do
    local name, text, mask, single = table.unpack(flag)
    local key = "trill_options.flags." .. name
    option_fields["flags_" .. name] = single and ProtoField.bool(key, text, 32, nil, mask) or ProtoField.uint32(key, text, base.HEX, nil, mask)
end
options.fields = option_fields
options.prefs.edition = Pref.uint("Edition of the header extension", 1, "1: the options draft; 2: the extended flags of RFC 7179")
local area_cut = ProtoExpert.new("trill_options.cut", "The options area runs past the frame", expert.group.MALFORMED, expert.severity.ERROR)
local option_past =
    ProtoExpert.new("trill_options.option.past", "The option runs past the options area", expert.group.MALFORMED, expert.severity.ERROR)
options.experts = {area_cut, option_past}

-- Adds the option at a place of the area and answers its size with padding.
local function add_option(area, place, tree)
    local header = area(place, OPTION_HEADER)
    local word = header:uint()
    local length = bit.band(word, 0x7F)
    local size = math.ceil((OPTION_HEADER + length) / WORD) * WORD
    local there = math.min(size, area:len() - place)
    local item = tree:add(option_fields.option, area(place, there))
    item:set_text(string.format("Option of Type 0x%02x, Length %d", bit.band(bit.rshift(word, 8), 0x3F), length))
    for _, field in ipairs({"ie", "nc", "kind", "mt", "length"}) do
        item:add(option_fields[field], header)
    end
    local data = math.min(length, there - OPTION_HEADER)
    if data > 0 then item:add(option_fields.data, area(place + OPTION_HEADER, data)) end
    local padding = there - OPTION_HEADER - data
    if padding > 0 then item:add(option_fields.padding, area(place + OPTION_HEADER + data, padding)) end
    if size > there then item:add_proto_expert_info(option_past) end
    return size
end

local function add_options(area, tree)
    local word = tree:add(option_fields.word, area(0, WORD))
    word:add(option_fields.chbh, area(0, WORD))
    word:add(option_fields.cite, area(0, WORD))
    word:add(option_fields.bits, area(0, WORD))
    local place = WORD
    while place + OPTION_HEADER <= area:len() do
        place = place + add_option(area, place, tree)
    end
end

local function add_flags(area, tree)
    local word = tree:add(option_fields.flags, area(0, WORD))
    for _, flag in ipairs(flag_fields) do
        word:add(option_fields["flags_" .. flag[1]], area(0, WORD))
    end
    if area:len() > WORD then tree:add(option_fields.extensions, area(WORD)) end
end

local function add_area(area, announced, tree)
    local subtree = tree:add(options, area)
    subtree:append_text(string.format(", %d octets", announced))
    if area:len() < announced then subtree:add_proto_expert_info(area_cut) end
    if area:len() < WORD then return end
    if options.prefs.edition == 2 then
        add_flags(area, subtree)
    else
        add_options(area, subtree)
    end
end

-- Stands in the place of Wireshark's own dissector of the TRILL header, and hands the frame on to it. What that finds malformed it has
-- said itself.
function options.dissector(buffer, pinfo, tree)
    if buffer:len() >= TRILL_HEADER then
        local announced = WORD * bit.band(bit.rshift(buffer(0, 2):uint(), 6), 0x1F)
        local there = math.min(announced, buffer:len() - TRILL_HEADER)
        if announced > 0 and there > 0 then add_area(buffer(TRILL_HEADER, there), announced, tree) end
    end
    pcall(function() trill_header:call(buffer, pinfo, tree) end)
    return buffer:len()
end
ethertypes:add(ETHERTYPE_TRILL, options)

-- ---- The RBridge Channel ----

local channel = Proto("trill_channel", "TRILL RBridge Channel")
local protocols = {[PROTOCOL_ERROR] = "channel error", [PROTOCOL_ECHO] = "echo"}
local errors = {
    [0] = "none",
    "frame too short",
    "unrecognized Ethertype",
    "unimplemented CHV",
    "wrong NA flag",
    "unimplemented channel protocol",
}
local spids = {[SPID_REQUEST] = "request", [SPID_REPLY] = "reply"}
local channel_fields = {
    chv = ProtoField.uint16("trill_channel.chv", "CHV", base.DEC, nil, 0xF000),
    protocol = ProtoField.uint16("trill_channel.protocol", "Protocol", base.HEX, protocols, 0x0FFF),
    flags = ProtoField.uint16("trill_channel.flags", "Flags", base.HEX, nil, 0xFFF0),
    sl = ProtoField.bool("trill_channel.flags.sl", "SL, silent", 16, nil, 0x8000),
    mh = ProtoField.bool("trill_channel.flags.mh", "MH, multi-hop", 16, nil, 0x4000),
    na = ProtoField.bool("trill_channel.flags.na", "NA, native", 16, nil, 0x2000),
    err = ProtoField.uint16("trill_channel.err", "ERR", base.DEC, errors, 0x000F),
    data = ProtoField.bytes("trill_channel.data", "Data"),
    error_frame = ProtoField.bytes("trill_channel.error.frame", "Frame at fault, from its Ethertype on"),
    spid = ProtoField.uint32("trill_channel.echo.spid", "SPID", base.DEC, spids, 0xF0000000),
    sequence = ProtoField.uint32("trill_channel.echo.sequence", "Sequence", base.DEC, nil, 0x0FFFFFFF),
    mode = ProtoField.uint8("trill_channel.echo.reply_mode", "Reply mode"),
    echo_flags = ProtoField.uint8("trill_channel.echo.flags", "Flags", base.HEX),
    sent = ProtoField.string("trill_channel.echo.time_sent", "Time sent, in seconds"),
    received = ProtoField.string("trill_channel.echo.time_received", "Time received, in seconds"),
    difference = ProtoField.int64("trill_channel.echo.difference", "Time received less time sent, in microseconds"),
    echo_data = ProtoField.bytes("trill_channel.echo.data", "Data"),
}
channel.fields = channel_fields
local cut = ProtoExpert.new("trill_channel.cut", "The message is cut short", expert.group.MALFORMED, expert.severity.ERROR)
channel.experts = {cut}

local function time_text(range)
    local seconds, microseconds = range(0, 3):uint(), range(3, 3):uint()
    local form = microseconds < 1000000 and "%d.%06d" or "%d and %d microseconds"
    return string.format(form, seconds, microseconds)
end

-- The seconds have 24 bits and come round: a difference is of half that range to either side.
local function difference(sent, received)
    local seconds = (received(0, 3):uint() - sent(0, 3):uint()) % 0x1000000
    if seconds >= 0x800000 then seconds = seconds - 0x1000000 end
    return seconds * 1000000 + received(3, 3):uint() - sent(3, 3):uint()
end

-- Adds an echo body and answers what the list of frames says of it.
local function add_echo(body, tree)
    if body:len() < ECHO_HEADER then
        tree:add_proto_expert_info(cut)
        return "echo, cut short"
    end
    local word, sent, received = body(0, 4), body(6, 6), body(12, 6)
    local spid, sequence = bit.rshift(word:uint(), 28), bit.band(word:uint(), 0x0FFFFFFF)
    local text = string.format("echo %s, sequence %d", spids[spid] or ("with SPID " .. spid), sequence)
    tree:add(channel_fields.spid, word)
    tree:add(channel_fields.sequence, word)
    tree:add(channel_fields.mode, body(4, 1))
    tree:add(channel_fields.echo_flags, body(5, 1))
    tree:add(channel_fields.sent, sent, time_text(sent))
    tree:add(channel_fields.received, received, time_text(received))
    if spid == SPID_REPLY then
        local microseconds = difference(sent, received)
        tree:add(channel_fields.difference, body(6, 12), Int64(microseconds)):set_generated()
        text = string.format("%s, %d microseconds", text, microseconds)
    end
    if body:len() > ECHO_HEADER then tree:add(channel_fields.echo_data, body(ECHO_HEADER)) end
    return text
end

-- Adds an error's body. The frame in it may be cut, so what its dissectors find is no fault of this one, and its addresses are not
-- those of this frame.
local addresses = {"src", "dst", "dl_src", "dl_dst", "net_src", "net_dst"}
local function add_error(body, pinfo, tree)
    local item, own = tree:add(channel_fields.error_frame, body), {}
    if body:len() < 2 + TRILL_HEADER or body(0, 2):uint() ~= ETHERTYPE_TRILL then return end
    for _, name in ipairs(addresses) do
        own[name] = pinfo[name]
    end
    pcall(function() ethertypes:try(ETHERTYPE_TRILL, body(2):tvb(), pinfo, item) end)
    for _, name in ipairs(addresses) do
        pinfo[name] = own[name]
    end
end

local function add_header(header, tree)
    tree:add(channel_fields.chv, header(0, 2))
    tree:add(channel_fields.protocol, header(0, 2))
    local flags = tree:add(channel_fields.flags, header(2, 2))
    for _, field in ipairs({"sl", "mh", "na"}) do
        flags:add(channel_fields[field], header(2, 2))
    end
    tree:add(channel_fields.err, header(2, 2))
end

function channel.dissector(buffer, pinfo, tree)
    local subtree = tree:add(channel, buffer())
    if buffer:len() < CHANNEL_HEADER then
        subtree:add_proto_expert_info(cut)
        return buffer:len()
    end
    local protocol, err = bit.band(buffer(0, 2):uint(), 0xFFF), bit.band(buffer(2, 2):uint(), 0xF)
    local text = string.format("protocol 0x%03x", protocol)
    add_header(buffer, subtree)
    if protocol == PROTOCOL_ERROR then
        text = string.format("error %d, %s", err, errors[err] or "unknown")
        if buffer:len() > CHANNEL_HEADER then add_error(buffer(CHANNEL_HEADER), pinfo, subtree) end
    elseif protocol == PROTOCOL_ECHO then
        text = add_echo(buffer:range(CHANNEL_HEADER), subtree)
    elseif buffer:len() > CHANNEL_HEADER then
        subtree:add(channel_fields.data, buffer(CHANNEL_HEADER))
    end
    subtree:append_text(": " .. text)
    pinfo.cols.protocol = "TRILL Channel"
    pinfo.cols.info = "RBridge Channel: " .. text
    return buffer:len()
end
ethertypes:add(ETHERTYPE_CHANNEL, channel)
