-- The heavy bench's rules as the bare machine tries them: every choice, and of each choice every clause.
return function(sensors, gates, meters, valves)
  local rules = {}

  -- `value = x`, x being worked out now and in the line before
  local function becomes(now, x, was, was_x)
    local equal_now = now ~= nil and now == x
    local equal_before = was ~= nil and was == was_x
    return equal_now and not equal_before
  end

  rules[1] = function(i)
    for _, s in ipairs(sensors) do
      for _, g in ipairs(gates) do
        for _, v in ipairs(valves) do
          local level = becomes(s.level, i, s.was_level, i)
          local with = g.room == s.room
          local open = g.open ~= g.was_open
          if level and with and open and v.room == g.room and v.new_turn == nil then v.new_turn = s.level * s.gain + i end
        end
      end
    end
  end

  rules[2] = function(i)
    for _, s in ipairs(sensors) do
      for _, m in ipairs(meters) do
        for _, v in ipairs(valves) do
          local lit = becomes(s.lit, true, s.was_lit, true)
          local with = m.room == s.room
          local flow = m.flow ~= m.was_flow
          if lit and with and flow then
            if m.flow and s.level and m.new_mark == nil then m.new_mark = m.flow * m.scale + (s.level + i) end
            if v.room == m.room and v.new_warn == nil then v.new_warn = true end
          end
        end
      end
    end
  end

  rules[3] = function(i)
    for _, a in ipairs(sensors) do
      for _, b in ipairs(sensors) do
        for _, g in ipairs(gates) do
          local level = becomes(a.level, b.level and b.level + i, a.was_level, b.was_level and b.was_level + i)
          local with = b.room == a.room
          local changed = b.level ~= b.was_level
          if level and with and changed and g.room == b.room and g.new_set == nil then g.new_set = a.level - b.level end
        end
      end
    end
  end

  rules[4] = function(i)
    for _, g in ipairs(gates) do
      for _, v in ipairs(valves) do
        for _, h in ipairs(gates) do
          local opened = becomes(g.open, true, g.was_open, true)
          local closed = becomes(g.open, false, g.was_open, false)
          local with = v.room == g.room
          local turned = v.turn ~= v.was_turn
          if (opened or closed) and with and turned and h.room == g.room and h.new_set == nil then h.new_set = v.room + i end
        end
      end
    end
  end

  rules[5] = function(i)
    for _, m in ipairs(meters) do
      for _, s in ipairs(sensors) do
        for _, v in ipairs(valves) do
          local mark = m.mark ~= m.was_mark
          local level = becomes(s.level, i, s.was_level, i)
          if mark and level and v.room == s.room and v.new_warn == nil then v.new_warn = false end
        end
      end
    end
  end

  rules[6] = function(i)
    for _, m in ipairs(meters) do
      for _, s in ipairs(sensors) do
        for _, v in ipairs(valves) do
          local with = m.scale == s.gain
          local flow = m.flow ~= m.was_flow
          local lit = becomes(s.lit, true, s.was_lit, true)
          if with and flow and lit and v.room == m.room and v.new_turn == nil then v.new_turn = s.gain + i end
        end
      end
    end
  end

  rules[7] = function(i)
    for _, g in ipairs(gates) do
      for _, s in ipairs(sensors) do
        for _, m in ipairs(meters) do
          local set = becomes(g.set, i, g.was_set, i)
          local with = s.room == g.room
          local level = s.level ~= s.was_level
          if set and with and level and s.level and m.room == s.room and m.new_mark == nil then m.new_mark = s.level / 2 end
        end
      end
    end
  end

  rules[8] = function(i)
    local g = gates[i + 1]
    for _, a in ipairs(sensors) do
      for _, b in ipairs(sensors) do
        for _, c in ipairs(sensors) do
          local first_level = a.level ~= a.was_level
          local with_b = b.room == a.room + 1
          local second_level = b.level ~= b.was_level
          local with_c = c.room == b.room + 1
          local third_level = becomes(c.level, a.level, c.was_level, a.was_level)
          if first_level and with_b and second_level and with_c and third_level and b.level and g.new_set == nil then
            g.new_set = a.level + b.level + c.level
          end
        end
      end
    end
  end

  return rules
end
