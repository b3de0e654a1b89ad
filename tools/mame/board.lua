-- What the scripts for MAME share: the machine, where its RAM lies, the start of the program, keys, sums of RAM.
--
-- The program begins in frame 70, DELAY T-states or a few more after that frame's blank. Until then the CPU executes
-- code in the unmapped addresses from D000, which a tap gives. When the program begins, all registers and all RAM are
-- 0, as after `reset PHASE 00`. Why frame 70: docs/MAME.md, "Clocks".
--
-- From the environment, beside DELAY: RAM, the first address of work RAM; FORWARD, `FROM,TO` of a write that is sent
-- on; KICK, set where the watchdog is to be read each frame in place of the program; KEYS, `FRAME PORT FIELD VALUE;..`.
local START = 70
local CODE = 0xD000

local machine = manager.machine
local cpu = machine.devices[":maincpu"]
local program = cpu.spaces["program"]
local state = cpu.state
local board = { machine = machine, program = program, state = state, ram = tonumber(os.getenv("RAM")) }

-- How many RAM bytes there are of each kind, and where: work, video and object RAM.
local rams = { { board.ram, 0x400 }, { board.ram + 0x1000, 0x400 }, { board.ram + 0x1800, 0x100 } }

-- "WORK VIDEO OBJECT", as `galcert run` prints them
function board.sums()
  local sums = {}
  for _, ram in ipairs(rams) do
    local sum = 0
    for at = ram[1], ram[1] + ram[2] - 1 do sum = sum + program:read_u8(at) end
    sums[#sums + 1] = sum
  end
  return table.concat(sums, " ")
end

-- "SP AF BC DE HL IX IY"
function board.registers()
  local words = {}
  for _, name in ipairs({ "SP", "AF", "BC", "DE", "HL", "IX", "IY" }) do
    words[#words + 1] = string.format("%04X", state[name].value)
  end
  return table.concat(words, " ")
end

-- Code that takes about as many T-states, and then jumps to 0000. It leaves all registers 0.
local function delayed_start(t_states)
  local code = {}
  local function put(...)
    for _, byte in ipairs({ ... }) do code[#code + 1] = byte end
  end
  while t_states > 3330 do
    put(0x06, 0x00, 0x10, 0xFE) -- LD B,0; DJNZ to itself: 256 turns
    t_states = t_states - 3330
  end
  if t_states > 40 then
    local turns = (t_states - 15) // 13
    put(0x06, turns, 0x10, 0xFE)
    t_states = t_states - 2 - 13 * turns
  end
  while t_states >= 4 do
    put(0x00)
    t_states = t_states - 4
  end
  put(0xC3, 0x00, 0x00)
  return code
end

local code = { 0x18, 0xFE } -- JR to itself
board.start_tap = program:install_read_tap(CODE, CODE + 0xFF, "start", function(at)
  return code[at - CODE + 1] or 0xFF
end)
for _, name in ipairs({ "AF", "IX", "IY" }) do state[name].value = 0 end
state.PC.value = CODE

local from, to = (os.getenv("FORWARD") or ""):match("(%x+),(%x+)")
if from then
  from, to = tonumber(from, 16), tonumber(to, 16)
  board.forward_tap = program:install_write_tap(from, from, "forward", function(_, byte) program:write_u8(to, byte) end)
end

local keys = {}
for frame, port, field, value in (os.getenv("KEYS") or ""):gmatch("(%d+) (%S+) ([^;]-) (%d+);") do
  local found = machine.ioport.ports[":" .. port].fields[field]
  if found then keys[#keys + 1] = { frame = tonumber(frame), field = found, value = tonumber(value) } end
end

local kick = (os.getenv("KICK") or "") ~= ""

-- Calls `each(N)` at the end of each frame, N counted from the start of the program.
function board.each_frame(each)
  local frame = -START
  emu.register_frame_done(function()
    frame = frame + 1
    if frame <= 0 or kick then program:read_u8(board.ram + 0x3800) end
    if frame == 0 then code = delayed_start(tonumber(os.getenv("DELAY") or "0")) end
    if frame < 0 then return end
    for _, key in ipairs(keys) do
      if key.frame == frame then key.field:set_value(key.value) end
    end
    each(frame)
  end)
end

return board
