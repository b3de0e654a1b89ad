-- Traces every instruction of a program: mame -debug -debugger none -autoboot_script trace.lua
--
-- From the environment: HERE, this folder; TRACE, the file for the trace; DUMP, the file for the states, one every
-- EVERY frames and one after FRAMES frames; and what board.lua takes. follow.py says what the lines are.
board = dofile(os.getenv("HERE") .. "/board.lua")
local debugger = board.machine.debugger
local frames, every = tonumber(os.getenv("FRAMES")), tonumber(os.getenv("EVERY"))
local dump = io.open(os.getenv("DUMP"), "w")

local function begin()
  local format = '"%d %04X %04X %04X %04X %04X %04X %04X %04X %04X %02X %02X %02X|"'
  local fields = "totalcycles,pc,sp,af,bc,de,hl,ix,iy,w@sp"
  for _, input in ipairs({ 0x2000, 0x2800, 0x3000 }) do fields = fields .. string.format(",b@%x", board.ram + input) end
  debugger:command(string.format("trace %s,maincpu,noloop,{tracelog %s,%s}", os.getenv("TRACE"), format, fields))
end

local function tell()
  debugger:command('printf "%d",totalcycles')
  local cycles = debugger.consolelog[#debugger.consolelog]
  dump:write(string.format("%s %04X %s %s\n", cycles, board.state.PC.value, board.registers(), board.sums()))
  dump:flush() -- follow.py reads it once the trace ends
end

local done
board.each_frame(function(frame)
  if done then return end
  if frame == 0 then begin() end
  if frame > 0 and (frame % every == 0 or frame == frames) then tell() end
  if frame > frames then -- the trace goes on for a frame, so that it has the time at which the last state was reached
    debugger:command("trace off,maincpu")
    dump:write("done\n")
    dump:close()
    done = true
    board.machine:exit()
  end
end)
