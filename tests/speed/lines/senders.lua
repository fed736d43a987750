-- What the programs for the usual and the heavy bench keep of each sender: its last number, its last line, and the row that this line gave.
local senders, known = {}, 0

-- The answer to a line: a refusal, the row that is kept, or that of a new line, whose actions `cycle` gives.
return function(cycle, line, by, n, ...)
  local sender = senders[by]
  n = tonumber(n)
  if not sender then
    if not by:find("^%a[%w_]*$") or #by > 24 then return "refused 43\n" end
    if known == 8 then return "refused 42\n" end
    if n ~= 1 then return "refused 24\n" end
    sender, known = {}, known + 1
    senders[by] = sender
  elseif n == sender.last then
    return line == sender.line and sender.row or "refused 25\n"
  elseif n ~= sender.last + 1 then
    return "refused 24\n"
  end
  sender.last, sender.line = n, line
  sender.row = by .. " " .. n .. " " .. cycle(...) .. "\n"
  return sender.row
end
