-- Runs inside the emulator and lends its core to src/mame.rs, which says in which form it is asked and answers.
-- No debugger is needed: the script sees every variable of the core and can set them all.

local machine = manager.machine
local cpu = machine.devices[":maincpu"]

local function variable(name) return emu.item(cpu.items["0/" .. name]) end

local banked = { variable("m_xwa"), variable("m_xbc"), variable("m_xde"), variable("m_xhl") }
local shared = { variable("m_xix"), variable("m_xiy"), variable("m_xiz"), variable("m_xssp") }
local counter, sr, spare, bank = variable("m_pc"), variable("m_sr"), variable("m_f2"), variable("m_regbank")
local unread, halted, look = variable("m_prefetch_clear"), variable("m_halted"), variable("m_check_irqs")
local asking, unmasked = variable("m_int_reg"), variable("m_nmi_state")
local seconds, attoseconds = variable("m_localtime.seconds"), variable("m_localtime.attoseconds")

local second = 1000000000000000000
local slice = 1.2 / 6144000
local sources, unmasked_source = 22, 22

-- Memory while stepping is what the case says, whatever the emulated board has there: RAM below, ROM on top, and bytes put over both.
-- The board gets a 0 in place of each byte that is stored, so that nothing of it is switched on.
local ram, rom, over, stored = "", "", {}, {}

local function read(address)
  local byte = over[address]
  if byte then return byte end
  if address < 0x10000 then return ram:byte(address + 1) end
  if address >= 0xFF0000 then return rom:byte(address - 0xFEFFFF) end
  return 0
end

local function write(address, byte)
  over[address] = byte
  stored[#stored + 1] = address << 8 | byte
  return 0
end

-- A tap goes when its object is collected, so they are kept.
local taps

local function tap()
  local space = cpu.spaces["program"]
  taps = { space:install_read_tap(0, 0xFFFFFF, "read", read), space:install_write_tap(0, 0xFFFFFF, "write", write) }
end

-- Lets the core run for what it is behind: its own clock is set back from now, and the machine waits a little more than a cycle.
-- With nothing set back it gets that cycle alone, and its first instruction uses it up: exactly one is done.
local function run(attoseconds_back)
  local now = machine.time
  local whole, part = now.seconds, now.attoseconds - attoseconds_back
  if part < 0 then whole, part = whole - 1, part + second end
  seconds:write(0, whole)
  attoseconds:write(0, part)
  unread:write(0, 1)
  emu.wait(slice)
end

local function set(words)
  for i = 0, 3 do
    for j, one in ipairs(banked) do one:write(i, words[4 * i + j]) end
  end
  for j, one in ipairs(shared) do one:write(0, words[16 + j]) end
  counter:write(0, words[21])
  sr:write(0, words[22])
  spare:write(0, words[23])
  bank:write(0, words[22] >> 8 & 3)
  halted:write(0, 0)
end

local function seen()
  local parts = {}
  for _, one in ipairs(banked) do parts[#parts + 1] = one:read_block(0, 16) end
  for _, one in ipairs(shared) do parts[#parts + 1] = one:read_block(0, 4) end
  parts[#parts + 1] = string.pack("<I4I4I4I4I4I2", counter:read(0), sr:read(0), spare:read(0), bank:read(0), halted:read(0), #stored)
  for _, one in ipairs(stored) do parts[#parts + 1] = string.pack("<I4", one) end
  return table.concat(parts)
end

-- A source of interrupts has half a byte of a register: its level, and above it whether it asks.
local function ask(source, level)
  for i = 0, sources // 2 - 1 do asking:write(i, 0) end
  unmasked:write(0, source == unmasked_source and 1 or 0)
  if source < sources then asking:write(source // 2, (8 | level) << 4 * (source % 2)) end
  look:write(0, 1)
end

local state = ("I4"):rep(23)

local function steps(batch)
  if not taps then tap() end
  local answers, cases, at = {}
  ram, rom, cases, at = string.unpack("<c65536c65536I4", batch)
  for _ = 1, cases do
    local words = { string.unpack("<" .. state .. "BBBB", batch, at) }
    at = words[28]
    over = {}
    for _ = 1, words[27] do
      local address, bytes
      address, bytes, at = string.unpack("<I4s1", batch, at)
      for i = 1, #bytes do over[address + i - 1 & 0xFFFFFF] = bytes:byte(i) end
    end
    set(words)
    ask(words[25], words[26])
    for _ = 1, words[24] do
      stored = {}
      run(0)
      answers[#answers + 1] = seen()
    end
  end
  return table.concat(answers)
end

-- The board's own memories, with nothing between them and the core.
local board_rom, board_ram = machine.memory.regions[":maincpu"], machine.memory.shares[":mainram"]

local function lay(batch)
  local words = { string.unpack("<c65536c12288" .. state, batch) }
  for i = 0, 65535 do board_rom:write_u8(i, words[1]:byte(i + 1)) end
  for i = 0, 12287 do board_ram:write_u8(i, words[2]:byte(i + 1)) end
  set({ table.unpack(words, 3) })
  ask(255, 0)
  return ""
end

-- Nine tenths of a second of the core's time at once, as it would be without all else that the machine emulates.
local function stretch()
  local start = emu.osd_ticks()
  run(second // 10 * 9)
  local took = (emu.osd_ticks() - start) / emu.osd_ticks_per_second()
  local bytes = {}
  for i = 0, 12287 do bytes[i + 1] = string.char(board_ram:read_u8(i)) end
  return string.pack("<d", took) .. table.concat(bytes) .. seen()
end

-- As it stands before its first instruction, with the ROM that it was reset from.
local at_reset = seen()

local function reset()
  local bytes = {}
  for i = 0, 65535 do bytes[i + 1] = string.char(board_rom:read_u8(i)) end
  return table.concat(bytes) .. at_reset
end

local answer = { r = reset, s = steps, l = lay, t = stretch }

local function serve()
  -- so that there is time to set back
  emu.wait(1.5)
  io.stdout:write("\nready " .. emu.app_version() .. "\n")
  io.stdout:flush()
  while true do
    local head = io.stdin:read(5)
    if not head then break end
    local kind, length = string.unpack("<c1I4", head)
    io.stdout:write(answer[kind](length > 0 and io.stdin:read(length) or ""))
    io.stdout:flush()
  end
  -- Leaving by the machine's own exit has been seen to crash.
  os.exit(0)
end

-- Only a coroutine can wait for the machine.
coroutine.wrap(serve)()
