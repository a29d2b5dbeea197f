-- Two kernels lane by lane under a mask, as one who embeds Lua would write them, for the benchmark
-- (docs/PERFORMANCE.md). The same file serves Lua 5.4 and LuaJIT.
--
--   routine   document 01's routine: ten is added to a sample below ten and taken from any other,
--             where the sample arrived; `t` is a new table in each run, as its declaration reads
--   kept      the same, but `t` is one table that is kept from run to run
--   while     each lane adds up the numbers from its own down to one; lanes leave one by one
--
-- Called with the name of a kernel and the number of lanes. Each line of standard input is answered
-- by one line:
--
--   left      runs once, and prints what it leaves in the lanes of the two blocks that it writes
--   run N     runs N times, each over the block anew, and prints the seconds of all together
--   copy N    makes the block anew N times and prints the seconds, which are a part of the former
--
-- Numbers here are Lua's own: unlike ints they do not wrap at 32 bits. No sample comes near that.

-- int block[lanes] t = 10; if (ok) { if (s < t) s = s + t; else s = s - t; } else ;
local function routine(block, lanes, t)
  local ok, s = block.ok, block.first
  for i = 1, lanes do t[i] = 10 end
  for i = 1, lanes do
    if ok[i] ~= 0 then
      if s[i] < t[i] then s[i] = s[i] + t[i] else s[i] = s[i] - t[i] end
    end
  end
  block.second = t
end

-- int block[lanes] a = 0; while (0 < n) { a = a + n; n = n - 1; }
local function sum(block, lanes)
  local n, a = block.first, block.second
  local live = true
  for i = 1, lanes do a[i] = 0 end
  while live do
    live = false
    for i = 1, lanes do
      if n[i] > 0 then live = true; a[i] = a[i] + n[i]; n[i] = n[i] - 1 end
    end
  end
end

local kernels = {
  routine = function(block, lanes) routine(block, lanes, {}) end,
  kept = function(block, lanes) routine(block, lanes, block.second) end,
  ["while"] = sum,
}

local kernel, lanes = kernels[arg[1]], tonumber(arg[2])
local samples = { 4, 7, 25, 90 }
local fresh = {}
local block = { ok = {}, first = {}, second = {} }
for i = 1, lanes do
  block.ok[i] = i % 2
  fresh[i] = kernel == sum and 10 * i or samples[(i - 1) % 4 + 1]
end

-- The block anew: the flags are never written.
local function copy()
  local first = block.first
  for i = 1, lanes do first[i] = fresh[i] end
end

local function timed(times, work)
  local start = os.clock()
  for _ = 1, times do work() end
  return string.format("%.9f", os.clock() - start)
end

for line in io.lines() do
  local what, times = line:match("^(%a+) ?(%d*)$")
  local answer
  if what == "left" then
    copy()
    kernel(block, lanes)
    answer = table.concat(block.first, " ") .. " " .. table.concat(block.second, " ")
  elseif what == "run" then
    answer = timed(tonumber(times), function() copy() kernel(block, lanes) end)
  else
    answer = timed(tonumber(times), copy)
  end
  io.write(answer, "\n")
  io.flush()
end
