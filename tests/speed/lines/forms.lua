-- Reals as 16 hexadecimal digits, for Lua 5.4 and LuaJIT.
local forms = {}

if jit then
  local ffi, bit = require "ffi", require "bit"
  local both = ffi.new("union { double real; struct { uint32_t low, high; } bits; }")
  function forms.real(text)
    both.bits.high = tonumber(text:sub(1, 8), 16)
    both.bits.low = tonumber(text:sub(9), 16)
    return both.real
  end
  function forms.hex(x)
    both.real = x
    return bit.tohex(both.bits.high) .. bit.tohex(both.bits.low)
  end
else
  local pack, unpack, format = string.pack, string.unpack, string.format
  function forms.real(text)
    return (unpack("<d", pack("<i8", tonumber(text, 16))))
  end
  function forms.hex(x)
    return format("%016x", (unpack("<i8", pack("<d", x))))
  end
end

return forms
