-- Prints what the readers of tools/golly/circuit.lua say of each case of dev/readers/cases, a line for each; `-` where
-- they do not read what the case is about. dev/readers-test compares them. The script's own end, which drives Golly, is
-- cut off.

local function text_of(name)
    local file = assert(io.open(name, "rb"))
    local text = file:read("a")
    file:close()
    return text
end

function golly() return setmetatable({}, {__index = function () return function () end end}) end
package.preload.gplus = function () return {} end
package.preload.oplus = function () return {} end
local source = text_of("tools/golly/circuit.lua")
local readers = [[
return read_table, read_gates, grouped, function (found, text)
    circuit, P, L, C = found, found.P, found.L, found.C
    clear_streams()
    local cycles, fault = read_words(text, 0)
    return cycles, fault, found
end]]
local read_table, read_gates, grouped, read_words = assert(load(source:sub(1, source:find("\nlocal out = os.getenv", 1, true))..readers))()

local LETTERS = {n = "\n", r = "\r", t = "\t", ["\\"] = "\\"}
local function unescaped(field)
    field = field:gsub("\\x(%x%x)", function (digits) return "\0"..string.char(tonumber(digits, 16)) end)
    return (field:gsub("\\(.)", LETTERS):gsub("%z(.)", "%1"))
end
local function escaped(name) return (name:gsub("[^!-~]", function (it) return string.format("%%%02X", it:byte()) end)) end
local function shown(line) return (line:gsub("[^ -~]", function (it) return string.format("%%%02X", it:byte()) end)) end

local function streams_of(contexts, inputs, words)
    local lines, y = {"#C BLIFWW 2 P "..32 * contexts.." L 0 C "..contexts}, 0
    for name in inputs:gmatch("%S+") do
        lines[#lines + 1] = "#C BLIFWW IN 0 "..y.." "..escaped((name:gsub("%%", "%%25")))
        y = y + 1
    end
    local cycles, fault, circuit = read_words(assert(read_table(table.concat(lines, "\n"))), words)
    if fault then return shown(fault) end
    local said = {cycles}
    for c = 0, contexts - 1 do
        for _, port in ipairs(circuit.IN) do
            local plan = port.plan[c] or {}
            if plan[0] then said[#said + 1] = c..":"..escaped(port.name).."="..table.concat(plan, "", 0, #plan) end
        end
    end
    return table.concat(said, " ")
end

local function buses_of(names)
    local ports, said = {}, {}
    for name in names:gmatch("%S+") do ports[#ports + 1] = {label = name} end
    for _, group in ipairs(grouped(ports, true)) do
        local bits = {}
        for i, port in ipairs(group.bits) do bits[i] = escaped(port.label) end
        said[#said + 1] = group.name and escaped(group.name).."="..table.concat(bits, ",") or bits[1]
    end
    return table.concat(said, " ")
end

-- It knows the gates alone, and no wires.
local function gates_of(text)
    local said = {}
    for _, it in ipairs(read_gates(text)) do
        said[#said + 1] = string.format("%s-%s %d %d %dx%d", it.word, it.turn, it.x, it.y, it.wide, it.high)
    end
    return #said > 0 and table.concat(said, ", ") or "none"
end

for line in text_of(arg[1]):gmatch("[^\n]+") do
    local fields = {}
    for field in (line.." | "):gmatch("(.-) | ") do fields[#fields + 1] = unescaped(field) end
    if fields[1] == "words" then
        print(streams_of(tonumber(fields[2]), fields[3], fields[4]))
    elseif fields[1] == "buses" then
        print(buses_of(fields[2]))
    elseif fields[1] == "gates" then
        print(fields[2]:find("wire", 1, true) and "-" or gates_of(fields[2]))
    elseif fields[1] == "text" then
        print("-")
    end
end
