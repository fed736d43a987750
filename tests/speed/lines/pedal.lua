-- The pedal bench by hand: a press keeps where the stage is. Of each sender the last number, the last line and its row are kept.
io.stdout:setvbuf("full")
local down, was_down, pos
local senders, known = {}, 0

local lines = io.lines("readings.txt")
assert(lines() == "by n p.down s.pos")
io.write("by n k.keep\n")
for line in lines do
  local by, n, d, p = line:match("^(%S+) (%d+) (%S+) (%S+)$")
  n = tonumber(n)
  local sender = senders[by]
  if not sender and (not by:find("^%a[%w_]*$") or #by > 24) then
    io.write("refused 43\n")
  elseif not sender and known == 8 then
    io.write("refused 42\n")
  elseif sender and n == sender.last then
    io.write(line == sender.line and sender.row or "refused 25\n")
  elseif n ~= (sender and sender.last or 0) + 1 then
    io.write("refused 24\n")
  else
    was_down = down
    if d ~= "-" then
      down = d == "true"
    end
    if p ~= "-" then
      pos = p
    end
    local keep = "-"
    if down and not was_down and pos then
      keep = pos
    end
    if not sender then
      sender, known = {}, known + 1
      senders[by] = sender
    end
    sender.last, sender.line = n, line
    sender.row = by .. " " .. n .. " " .. keep .. "\n"
    io.write(sender.row)
  end
end
