-- A Wireshark dissector of the messages between a payment host, or the console, and a Sothvelm module.
--
--     tshark -X lua_script:examples/wireshark/sothvelm.lua -r FILE
--     wireshark -X lua_script:examples/wireshark/sothvelm.lua
--
-- The names of commands, fields and error codes are those of commands.txt, which lies in the folder above this file or,
-- where both were copied to a folder of plugins, beside it. Preferences: the console's port, the host ports, and the
-- length of the header. Frames are put together over TCP segments. Key texts, enciphered PINs, and what is in the clear
-- (keys, PINs, components and officers' words) are fields of their own kinds, so that `sothvelm.clear` filters what
-- should not be seen.

local sothvelm = Proto("sothvelm", "Sothvelm module")

sothvelm.prefs.console = Pref.uint("Console port", 1500, "The port of the console")
sothvelm.prefs.hosts = Pref.range("Host ports", "1501-1564", "The ports of host lanes", 65535)
sothvelm.prefs.header = Pref.uint("Header length", 4, "The bytes before the command code of a host's message")

local fields = {
    length = ProtoField.uint16("sothvelm.length", "Length"),
    header = ProtoField.bytes("sothvelm.header", "Header"),
    code = ProtoField.string("sothvelm.code", "Code"),
    title = ProtoField.string("sothvelm.title", "Command"),
    error = ProtoField.string("sothvelm.error", "Error code"),
    meaning = ProtoField.string("sothvelm.meaning", "Meaning"),
    text = ProtoField.string("sothvelm.text", "Console text"),
    field = ProtoField.string("sothvelm.field", "Field"),
    key = ProtoField.string("sothvelm.key", "Key text"),
    block = ProtoField.string("sothvelm.block", "Enciphered PIN"),
    clear = ProtoField.string("sothvelm.clear", "In the clear"),
    set = ProtoField.string("sothvelm.set", "LMK set"),
    trailer = ProtoField.bytes("sothvelm.trailer", "Trailer"),
    rest = ProtoField.bytes("sothvelm.rest", "Not read"),
}
sothvelm.fields = fields

-- The table of commands: by code and by reply code; the meanings of error codes.

local requests, replies, meanings = {}, {}, {}

local function open_table()
    local folder = debug.getinfo(1, "S").source:match("^@(.*[/\\])") or "./"
    for _, name in ipairs({"commands.txt", "../commands.txt"}) do
        local file = io.open(folder .. name)
        if file then
            return file
        end
    end
    error("sothvelm.lua: no commands.txt beside it, nor in the folder above it")
end

local function read_table()
    local number, last = 0, nil
    for line in open_table():lines() do
        number = number + 1
        local side, form, kind, name = line:match("^([<>]) (%S+) (%S+) (.+)$")
        local error_code, meaning = line:match("^! (%S+) (.+)$")
        local code, reply, title = line:match("^(%w+) (%S+) (.+)$")
        if side and last then
            table.insert(last[side], {form = form, kind = kind, name = name})
        elseif error_code then
            meanings[error_code] = meaning
        elseif code then
            last = {code = code, title = title, console = reply == "-", ["<"] = {}, [">"] = {}}
            requests[code] = last
            replies[reply] = last
        elseif line ~= "" and not line:match("^[#~*=]") then
            error("sothvelm.lua: line " .. number .. " of commands.txt is none of a command, a field and a meaning")
        end
    end
end
read_table()

-- The size of a form at the front of a text, or nil where no text of it stands.

local function run(rest, class, count)
    if count > 0 and #rest >= count and rest:sub(1, count):match("^" .. class .. "+$") then
        return count
    end
end

local PARTS = {Z = 16, U = 32, T = 48, X = 32, Y = 48}

local function key(rest, tags, untagged)
    local tag = rest:sub(1, 1)
    if tags:find(tag, 1, true) and PARTS[tag] then
        return run(rest:sub(2), "%x", PARTS[tag]) and PARTS[tag] + 1
    end
    return untagged and run(rest, "%x", untagged)
end

local function one_of(rest, ...)
    for _, text in ipairs({...}) do
        if rest:sub(1, #text) == text then
            return #text
        end
    end
end

local function filled(rest)
    return #rest >= 12 and rest:sub(1, 12):match("^%d*F*$") and 12 or nil
end

local function key_type(rest)
    return one_of(rest, "000", "001", "002", "402", "003", "008", "009", "00A", "00B")
end

local SIZES = {
    K = function(rest) return key(rest, "ZUT", 16) end,
    P = function(rest) return key(rest, "U", 32) end,
    W = function(rest) return key(rest, "ZUTXY", 16) end,
    KF = function(rest, texts) return key(rest, "ZUT", ({["0"] = 16, ["1"] = 32})[texts[2]]) end,
    type = key_type,
    mactype = function(rest) return one_of(rest, "003", "008") end,
    type2 = function(rest) return rest:match("^FF") and 2 or rest:match("^0[012389AB]") and 2 end,
    flag = function(rest) return one_of(rest, "0", "1", "2") end,
    scheme = function(rest) return one_of(rest, "Z", "U", "T") end,
    wscheme = function(rest) return one_of(rest, "Z", "U", "T", "X", "Y") end,
    format = function(rest) return one_of(rest, "01", "03", "05", "47") end,
    len = function(rest) return (rest:match("^0[4-9]") or rest:match("^1[012]")) and 2 end,
    ["[;f]"] = function(rest) return rest:sub(1, 1) ~= ";" and 0 or one_of(rest, ";0", ";1") end,
    pan = function(rest) local digits = rest:match("^%d+;"); return digits and #digits end,
    ["12F"] = filled,
    offs = filled,
    ["12V"] = function(rest) return rest:sub(1, 12):match("^%x*N%x*$") and 12 end,
    ["0to1"] = function(rest) return rest:match("^[01]") and 1 end,
    ["0to2"] = function(rest) return rest:match("^[0-2]") and 1 end,
    ["0to3"] = function(rest) return rest:match("^[0-3]") and 1 end,
    ["1or3"] = function(rest) return one_of(rest, "1", "3") end,
    count = function(rest) return run(rest, "%x", 4) end,
    ["00"] = function(rest) return one_of(rest, "00") end,
    [";"] = function(rest) return one_of(rest, ";") end,
    mac = function(rest, texts) return run(rest, "%x", texts[3] == "0" and 8 or 16) end,
    data = function(rest, texts) return #texts > 0 and math.min(#rest, tonumber(texts[#texts], 16)) or #rest end,
    hex = function(rest) return #rest:match("^%x*") end,
    text = function(rest) return #rest:match("^[^\x19]*") end,
    comp = function(rest) return run(rest, "%x", 48) or run(rest, "%x", 32) or run(rest, "%x", 16) end,
    number = function(rest) local digits = rest:match("^%d+"); return digits and #digits end,
    -- The second key text of A1, which stands where more than the check value follows.
    ["[W]"] = function(rest) return #rest:match("^[^\x19]*") > 6 and key(rest, "ZUTXY", 16) or 0 end,
}

local function size_of(form, rest, texts)
    local condition, plain = form:match("^(%w+):(.+)$")
    if condition == "FF" and texts[1] ~= "FF" then
        return 0
    end
    if condition and condition ~= "FF" and not condition:sub(5):find(texts[1], 1, true) then
        return 0
    end
    plain = plain or form
    local count, class = plain:match("^(%d+)([NH])$")
    if count then
        return run(rest, class == "N" and "%d" or "%x", tonumber(count))
    end
    return SIZES[plain](rest, texts)
end

-- Trees of frames

-- The fields from a place on; behind those of a message, the LMK set that it names; and the trailer, or what is not read.
local function add_fields(tree, range, at, list, is_reply)
    local texts = {}
    for _, entry in ipairs(list) do
        local rest = range:len() > at and range(at):raw() or ""
        local size = size_of(entry.form, rest, texts)
        if not size then
            break
        end
        texts[#texts + 1] = rest:sub(1, size)
        if size > 0 then
            local kind = fields[entry.kind] or fields.field
            local item = tree:add(kind, range(at, size), texts[#texts])
            item:set_text(entry.name .. " (" .. entry.form .. "): " .. texts[#texts])
        end
        at = at + size
    end
    if not is_reply and at + 3 <= range:len() and range(at, 3):raw():match("^%%%d%d$") then
        tree:add(fields.set, range(at, 3))
        at = at + 3
    end
    if at < range:len() then
        tree:add(range(at, 1):uint() == 0x19 and fields.trailer or fields.rest, range(at))
    end
end

local function add_host(tree, range, is_reply)
    local length = sothvelm.prefs.header
    if range:len() < length + 2 then
        tree:add(fields.rest, range)
        return "short"
    end
    if length > 0 then
        tree:add(fields.header, range(0, length))
    end
    local code = range(length, 2):string()
    local command = (is_reply and replies or requests)[code]
    local info = (is_reply and "<" or ">") .. code
    tree:add(fields.code, range(length, 2))
    if command then
        tree:add(fields.title, range(length, 2), command.title)
    end
    local at, list = length + 2, command and command[">"] or {}
    if is_reply then
        if range:len() < at + 2 then
            return info
        end
        local error_code = range(at, 2):string()
        local meaning = meanings[error_code] or "no known error code"
        tree:add(fields.error, range(at, 2))
        tree:add(fields.meaning, range(at, 2), meaning)
        info = info .. " " .. error_code .. " " .. meaning
        list, at = error_code == "00" and command and command["<"] or {}, at + 2
    elseif command then
        info = info .. " " .. command.title
    end
    add_fields(tree, range, at, list, is_reply)
    return info
end

-- The places and sizes of the texts between spaces behind the first one.
local function texts_of(text)
    local found, at = {}, #text:match("^%S*")
    while at < #text do
        local each = text:sub(at + 2):match("^%S*")
        found[#found + 1] = {at = at + 1, text = each}
        at = at + 1 + #each
    end
    return found
end

-- A text of the console is marked by its place, whether or not it stands, so that a secret in a refused one is, too.
local function add_texts(tree, range, text, list)
    for place, each in ipairs(texts_of(text)) do
        local entry = list[place] or {form = "?", kind = "-", name = "more"}
        local last = list[#list]
        if last and last.form == "[%nn]" and each.text:match("^%%%d%d$") then
            entry = {form = last.form, kind = "set", name = last.name}
        end
        if #each.text > 0 then
            local item = tree:add(fields[entry.kind] or fields.field, range(each.at, #each.text), each.text)
            item:set_text(entry.name .. " (" .. entry.form .. "): " .. each.text)
        end
    end
end

-- The command whose reply has a field in the clear and just these texts: a reply does not name its command.
local function shown_by(text)
    local found = texts_of(text)
    for _, command in pairs(requests) do
        local shows, all = false, #found == #command["<"]
        for place, entry in ipairs(command["<"]) do
            local each = all and found[place].text
            all = all and SIZES[entry.form] ~= nil or all and entry.form:match("^%d+[NH]$") ~= nil
            all = all and size_of(entry.form, each, {}) == #each
            shows = shows or entry.kind == "clear"
        end
        if all and shows and command.console then
            return command
        end
    end
end

local function add_console(tree, range, is_reply)
    local text = range:string()
    tree:add(fields.text, range)
    if is_reply then
        local cause = text:match("^NO (.+)$")
        local command = text:match("^OK ") and shown_by(text)
        if cause then
            tree:add(fields.error, range(3), cause)
            tree:add(fields.meaning, range(3), meanings[cause] or "no known cause")
        elseif command then
            add_texts(tree, range, text, command["<"])
        end
        return "<" .. text
    end
    local command = requests[text:match("^%S*")]
    if command then
        tree:add(fields.code, range(0, #command.code))
        tree:add(fields.title, range(0, #command.code), command.title)
        add_texts(tree, range, text, command[">"])
    end
    return ">" .. text
end

local function frame_length(buffer, _, offset)
    return 2 + buffer(offset, 2):uint()
end

local infos = {}

local function dissect_frame(buffer, info, root)
    local is_console = info.src_port == sothvelm.prefs.console or info.dst_port == sothvelm.prefs.console
    local is_reply = info.src_port == info.match_uint
    local tree = root:add(sothvelm, buffer())
    tree:add(fields.length, buffer(0, 2))
    local said = "empty"
    if buffer:len() > 2 then
        said = (is_console and add_console or add_host)(tree, buffer(2), is_reply)
    end
    tree:append_text(", " .. said)
    infos[#infos + 1] = said
    return buffer:len()
end

function sothvelm.dissector(buffer, info, root)
    infos = {}
    info.cols.protocol = "Sothvelm"
    dissect_tcp_pdus(buffer, root, 2, frame_length, dissect_frame)
    if #infos > 0 then
        info.cols.info = table.concat(infos, " | ")
    end
    return buffer:len()
end

local tcp_ports = DissectorTable.get("tcp.port")
local hosts, console = "", 0

-- Preferences are read once at the start, and again whenever they change.
local function listen()
    if hosts ~= "" then
        tcp_ports:remove(hosts, sothvelm)
        tcp_ports:remove(console, sothvelm)
    end
    hosts, console = sothvelm.prefs.hosts, sothvelm.prefs.console
    tcp_ports:add(hosts, sothvelm)
    tcp_ports:add(console, sothvelm)
end

sothvelm.prefs_changed = listen
listen()
