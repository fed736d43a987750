-- The usual bench by hand.
package.path = arg[0]:gsub("[^/]*$", "") .. "?.lua;" .. package.path
local forms, take = require "forms", require "senders"
local real, hex = forms.real, forms.hex
io.stdout:setvbuf("full")

local stage = { step = 1000, desk = 1 }
local pedal = {}
local camera = { desk = 1 }
local lamps = { { desk = 1, level = 4 }, { desk = 1, level = 7 }, { desk = 2, level = 5 }, { desk = 3, level = 9 } }
local probes = { { desk = 1, limit = 24.0 }, { desk = 1, limit = 26.0 }, { desk = 2, limit = 22.0 }, { desk = 3, limit = 30.0 } }
local log = {}

-- A reading: `-` leaves the value, `?` takes it away.
local function whole(old, text)
  if text == "-" then return old end
  if text == "?" then return nil end
  return tonumber(text)
end
local function bool(old, text)
  if text == "-" then return old end
  if text == "?" then return nil end
  return text == "true"
end
local function real_or(old, text)
  if text == "-" then return old end
  if text == "?" then return nil end
  return real(text)
end

local function show(x)
  if x == nil then return "-" end
  return tostring(x)
end
local function show_real(x)
  if x == nil then return "-" end
  return hex(x)
end

-- What each rule sees as the value before is kept in `was_...`; an action is seen in the line after it.
local function cycle(pos, edge, dir, count, held, width, t1, o1, t2, o2, t3, o3, t4, o4)
  stage.was_dir = stage.dir
  stage.pos = whole(stage.pos, pos)
  stage.edge = whole(stage.edge, edge)
  stage.dir = whole(stage.dir, dir)
  pedal.was_count, pedal.was_held = pedal.count, pedal.held
  pedal.count = whole(pedal.count, count)
  pedal.held = bool(pedal.held, held)
  camera.was_width = camera.width
  camera.width = real_or(camera.width, width)
  for k = 1, 4 do
    local probe = probes[k]
    probe.was_temp, probe.was_ok = probe.temp, probe.ok
  end
  probes[1].temp, probes[1].ok = real_or(probes[1].temp, t1), bool(probes[1].ok, o1)
  probes[2].temp, probes[2].ok = real_or(probes[2].temp, t2), bool(probes[2].ok, o2)
  probes[3].temp, probes[3].ok = real_or(probes[3].temp, t3), bool(probes[3].ok, o3)
  probes[4].temp, probes[4].ok = real_or(probes[4].temp, t4), bool(probes[4].ok, o4)

  -- What fires in this line; the cells of the last one stay until all rules are done.
  local steps, mm, ratio, turned, missing, drift, hot, scale, snap
  local counted = pedal.count ~= pedal.was_count
  if counted and stage.pos and stage.edge and stage.dir then
    steps = (stage.pos - stage.edge) * stage.dir + 0 -- no minus zero where numbers are reals
    mm = steps / stage.step
    if camera.width and steps ~= 0 then
      ratio = camera.width * stage.step / steps
    end
  end
  if stage.dir ~= stage.was_dir then
    turned = stage.dir
  end
  if counted and (pedal.held and not pedal.was_held or stage.dir ~= stage.was_dir) then
    snap = pedal.count
  end
  if log.steps == 0 and log.was_steps ~= 0 then
    missing = true
  end
  local held_changed = pedal.held ~= pedal.was_held
  for k = 1, 4 do
    local probe, lamp = probes[k], lamps[k]
    local alarm, switch, dim
    if probe.ok == false and probe.was_ok ~= false and probe.temp then
      alarm = probe.temp - probe.limit
    end
    if held_changed and lamp.desk == stage.desk then
      switch = pedal.held
    end
    local temp_changed = probe.temp ~= probe.was_temp
    if temp_changed and not drift and probe.desk == stage.desk and probe.temp then
      drift = probe.temp - probe.limit
    end
    if lamp.switch and not lamp.was_switch and pedal.count then
      dim = lamp.level * 10 + pedal.count
    end
    if temp_changed and not hot and probe.alarm ~= probe.was_alarm then
      hot = probe.desk
    end
    probe.was_alarm, probe.alarm = probe.alarm, alarm
    lamp.was_switch, lamp.switch = lamp.switch, switch
    lamp.dim = dim
  end
  if camera.width ~= camera.was_width and camera.desk == stage.desk and camera.width then
    scale = camera.width * stage.step
  end
  log.was_steps, log.steps = log.steps, steps

  return table.concat({
    show(snap),
    show(lamps[1].switch), show(lamps[1].dim), show(lamps[2].switch), show(lamps[2].dim),
    show(lamps[3].switch), show(lamps[3].dim), show(lamps[4].switch), show(lamps[4].dim),
    show_real(probes[1].alarm), show_real(probes[2].alarm), show_real(probes[3].alarm), show_real(probes[4].alarm),
    show(steps), show_real(mm), show_real(ratio), show(turned), show(missing), show_real(drift), show(hot), show_real(scale),
  }, " ")
end

local lines = io.lines("readings.txt")
assert(lines() == "by n stage.pos stage.edge stage.dir pedal.count pedal.held camera.width probe1.temp probe1.ok probe2.temp probe2.ok "
  .. "probe3.temp probe3.ok probe4.temp probe4.ok")
io.write("by n camera.snap lamp1.switch lamp1.dim lamp2.switch lamp2.dim lamp3.switch lamp3.dim lamp4.switch lamp4.dim probe1.alarm probe2.alarm "
  .. "probe3.alarm probe4.alarm log.steps log.mm log.ratio log.turned log.missing log.drift log.hot log.scale\n")
local fields = "^(%S+) (%d+) " .. ("(%S+) "):rep(13) .. "(%S+)$"
for line in lines do
  io.write(take(cycle, line, line:match(fields)))
end
