-- Runs a program without the debugger: mame -autoboot_script fast.lua
--
-- Writes to DUMP the inputs, the time of each start at 0000, each NMI with its time and the address that it interrupted,
-- and the state at the first NMI after FRAMES frames, right after the acceptance. Times are in T-states. From the
-- environment: HERE, this folder; DUMP; FRAMES; and what board.lua takes.
board = dofile(os.getenv("HERE") .. "/board.lua")
local machine, program, state = board.machine, board.program, board.state
local frames = tonumber(os.getenv("FRAMES"))
local dump = io.open(os.getenv("DUMP"), "w")
local PERIOD = 325520833333 -- attoseconds, as MAME takes a clock of 3,072,000 Hz

local function cycles()
  local time = machine.time
  return time.seconds * 3072000 + (time.attoseconds + time.seconds * 1024000 + PERIOD // 2) // PERIOD
end

local ends, done

board.reset_tap = program:install_read_tap(0x0000, 0x0000, "reset", function()
  if not done then dump:write(string.format("start %d\n", cycles())) end
end)

board.nmi_tap = program:install_read_tap(0x0066, 0x0066, "nmi", function()
  if done then return end
  local sp = state.SP.value
  dump:write(string.format("nmi %d %02X%02X\n", cycles(), program:read_u8((sp + 1) & 0xFFFF), program:read_u8(sp)))
  if ends then
    dump:write(string.format("state %s %s\ndone\n", board.registers(), board.sums()))
    dump:close()
    done = true
    machine:exit()
  end
end)

dump:write("inputs")
for _, input in ipairs({ 0x2000, 0x2800, 0x3000 }) do
  dump:write(string.format(" %02X", program:read_u8(board.ram + input)))
end
dump:write("\n")
board.each_frame(function(frame) ends = frame >= frames end)
