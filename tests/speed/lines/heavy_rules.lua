-- The heavy bench's rules as loops, a choice given up at the first clause that is false, a loop once its other choices could only write
-- to cells that are written.
return function(sensors, gates, meters, valves)
  local rules = {}

  rules[1] = function(i)
    for _, s in ipairs(sensors) do
      if s.level == i and s.was_level ~= i then
        for _, g in ipairs(gates) do
          if g.room == s.room and g.open ~= g.was_open then
            for _, v in ipairs(valves) do
              if v.room == g.room and v.new_turn == nil then v.new_turn = s.level * s.gain + i end
            end
            break
          end
        end
      end
    end
  end

  rules[2] = function(i)
    for _, s in ipairs(sensors) do
      if s.lit and not s.was_lit then
        local warned
        for _, m in ipairs(meters) do
          if m.room == s.room and m.flow ~= m.was_flow then
            if m.flow and s.level and m.new_mark == nil then m.new_mark = m.flow * m.scale + (s.level + i) end
            if not warned then
              for _, v in ipairs(valves) do
                if v.room == m.room and v.new_warn == nil then v.new_warn = true end
              end
              warned = true
            end
          end
        end
      end
    end
  end

  rules[3] = function(i)
    for _, a in ipairs(sensors) do
      for _, b in ipairs(sensors) do
        if b.room == a.room and b.level ~= b.was_level
          and a.level and b.level and a.level == b.level + i
          and not (a.was_level and b.was_level and a.was_level == b.was_level + i) then
          for _, g in ipairs(gates) do
            if g.room == b.room and g.new_set == nil then g.new_set = a.level - b.level end
          end
          break
        end
      end
    end
  end

  rules[4] = function(i)
    for _, g in ipairs(gates) do
      if g.open and not g.was_open or g.open == false and g.was_open ~= false then
        for _, v in ipairs(valves) do
          if v.room == g.room and v.turn ~= v.was_turn then
            for _, h in ipairs(gates) do
              if h.room == g.room and h.new_set == nil then h.new_set = v.room + i end
            end
            break
          end
        end
      end
    end
  end

  rules[5] = function(i)
    for _, m in ipairs(meters) do
      if m.mark ~= m.was_mark then
        for _, s in ipairs(sensors) do
          if s.level == i and s.was_level ~= i then
            for _, v in ipairs(valves) do
              if v.room == s.room and v.new_warn == nil then v.new_warn = false end
            end
          end
        end
        break
      end
    end
  end

  rules[6] = function(i)
    for _, m in ipairs(meters) do
      if m.flow ~= m.was_flow then
        for _, s in ipairs(sensors) do
          if m.scale == s.gain and s.lit and not s.was_lit then
            for _, v in ipairs(valves) do
              if v.room == m.room and v.new_turn == nil then v.new_turn = s.gain + i end
            end
            break
          end
        end
      end
    end
  end

  rules[7] = function(i)
    for _, g in ipairs(gates) do
      if g.set == i and g.was_set ~= i then
        for _, s in ipairs(sensors) do
          if s.room == g.room and s.level ~= s.was_level and s.level then
            for _, m in ipairs(meters) do
              if m.room == s.room and m.new_mark == nil then m.new_mark = s.level / 2 end
            end
            break
          end
        end
      end
    end
  end

  rules[8] = function(i)
    local g = gates[i + 1]
    if g.new_set ~= nil then return end
    for _, a in ipairs(sensors) do
      if a.level and a.level ~= a.was_level then
        for _, b in ipairs(sensors) do
          if b.room == a.room + 1 and b.level ~= b.was_level then
            for _, c in ipairs(sensors) do
              if c.room == b.room + 1 and c.level == a.level and not (c.was_level and c.was_level == a.was_level) and b.level then
                g.new_set = a.level + b.level + c.level
                return
              end
            end
          end
        end
      end
    end
  end

  return rules
end
