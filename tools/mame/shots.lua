-- Takes screenshots: mame -snapshot_directory FOLDER -autoboot_script shots.lua
--
-- From the environment: HERE, this folder; SHOTS, `FRAME ..`, counted from the start of the program; NAME, how the names
-- of the files begin; and what board.lua takes.
board = dofile(os.getenv("HERE") .. "/board.lua")
local wanted, last = {}, 0
for word in os.getenv("SHOTS"):gmatch("%d+") do
  local frame = tonumber(word)
  wanted[frame] = true
  last = math.max(last, frame)
end
board.each_frame(function(frame)
  if wanted[frame] then board.machine.screens[":screen"]:snapshot(string.format("%s-%05d.png", os.getenv("NAME"), frame)) end
  if frame == last then board.machine:exit() end
end)
