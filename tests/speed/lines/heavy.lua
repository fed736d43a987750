-- The heavy bench by hand: heavy.lua [RULES], the rules being in heavy_rules.lua if no other module is named.
package.path = arg[0]:gsub("[^/]*$", "") .. "?.lua;" .. package.path
local forms, take = require "forms", require "senders"
local real, hex = forms.real, forms.hex
io.stdout:setvbuf("full")

local sensors, gates, meters, valves = {}, {}, {}, {}
for k = 0, 7 do
  local room = math.floor(k / 2)
  sensors[k + 1] = { room = room, gain = k % 4 + 1 }
  gates[k + 1] = { room = room }
  meters[k + 1] = { room = room, scale = k % 4 + 1.0 }
  valves[k + 1] = { room = room }
end

-- `was_x` is the value in the line before; an action is seen in the line after it, `new_x` is what fires now: the earliest write stands.
local rules = require(arg[1] or "heavy_rules")(sensors, gates, meters, valves)

local function whole(old, text)
  if text == "-" then return old end
  if text == "?" then return nil end
  return tonumber(text)
end
local function bool(old, text)
  if text == "-" then return old end
  if text == "?" then return nil end
  return text == "true"
end
local function real_or(old, text)
  if text == "-" then return old end
  if text == "?" then return nil end
  return real(text)
end

local function show(x)
  if x == nil then return "-" end
  return tostring(x)
end

local function cycle(next_field)
  for _, s in ipairs(sensors) do
    s.was_level, s.was_lit = s.level, s.lit
    s.level = whole(s.level, next_field())
    s.lit = bool(s.lit, next_field())
  end
  for _, g in ipairs(gates) do
    g.was_open = g.open
    g.open = bool(g.open, next_field())
  end
  for _, m in ipairs(meters) do
    m.was_flow = m.flow
    m.flow = real_or(m.flow, next_field())
  end
  for i = 0, 7 do
    for k = 1, 8 do rules[k](i) end
  end
  local row = {}
  for _, g in ipairs(gates) do
    g.was_set, g.set, g.new_set = g.set, g.new_set, nil
    row[#row + 1] = show(g.set)
  end
  for _, m in ipairs(meters) do
    m.was_mark, m.mark, m.new_mark = m.mark, m.new_mark, nil
    row[#row + 1] = m.mark and hex(m.mark) or "-"
  end
  for _, v in ipairs(valves) do
    v.was_turn, v.turn, v.new_turn = v.turn, v.new_turn, nil
    v.warn, v.new_warn = v.new_warn, nil
    row[#row + 1] = show(v.turn)
    row[#row + 1] = show(v.warn)
  end
  return table.concat(row, " ")
end

local lines = io.lines("readings.txt")
lines()
local names = {}
for k = 0, 7 do names[#names + 1] = "g" .. k .. ".set" end
for k = 0, 7 do names[#names + 1] = "m" .. k .. ".mark" end
for k = 0, 7 do names[#names + 1] = "v" .. k .. ".turn v" .. k .. ".warn" end
io.write("by n ", table.concat(names, " "), "\n")
for line in lines do
  local next_field = line:gmatch("%S+")
  local by, n = next_field(), next_field()
  io.write(take(cycle, line, by, n, next_field))
end
