-- The benchmark's algorithms over trees, driven by lines on standard input:
-- `load LABEL TASK TREE..` keeps arguments (prefix form, 1 a node, 0 a leaf); `run LABEL TURNS` answers a check of the value.
-- A leaf is false, a node a table of two.

local function ack(m, n)
  if not m then return { false, n } end
  if not n then return ack(m[2], { false, false }) end
  return ack(m[2], ack(m, n[2]))
end

local function less_or_equal(a, b)
  if not a then return true end
  if not b then return false end
  return less_or_equal(a[2], b[2])
end

local function insert(x, l)
  if not l then return { x, false } end
  if less_or_equal(x, l[1]) then return { x, l } end
  return { l[1], insert(x, l[2]) }
end

local function sort(l)
  if not l then return false end
  return insert(l[1], sort(l[2]))
end

local function mirror(t)
  if not t then return false end
  return { mirror(t[2]), mirror(t[1]) }
end

local function reverse(l, acc)
  if not l then return acc end
  return reverse(l[2], { l[1], acc })
end

local function turn(a, b, c, d, e, f, g, h)
  if not a then return b end
  return turn(b, c, d, e, f, g, h, a[2])
end

local tasks = { ack = ack, sort = sort, mirror = mirror, reverse = reverse, turn = turn }

local function parse(text)
  local stack, top = {}, 0
  for i = #text, 1, -1 do
    if text:byte(i) == 48 then
      top = top + 1
      stack[top] = false
    else
      stack[top - 1] = { stack[top], stack[top - 1] }
      top = top - 1
    end
  end
  return stack[1]
end

local function check(tree)
  local stack, top, sum = { tree }, 1, 0
  while top > 0 do
    local t = stack[top]
    if t then
      sum = (sum * 31 + 2) % 1000003
      stack[top], stack[top + 1] = t[2], t[1]
      top = top + 1
    else
      sum = (sum * 31 + 1) % 1000003
      top = top - 1
    end
  end
  return sum
end

local loaded = {}
for line in io.lines() do
  local words = {}
  for word in line:gmatch("%S+") do words[#words + 1] = word end
  if words[1] == "load" then
    local args = {}
    for i = 4, #words do args[#args + 1] = parse(words[i]) end
    loaded[words[2]] = { tasks[words[3]], args }
  else
    local task, args = table.unpack(loaded[words[2]])
    local a, b, c, d, e, f, g, h = table.unpack(args)
    local value
    for _ = 1, tonumber(words[3]) do value = task(a, b, c, d, e, f, g, h) end
    print(check(value))
    io.flush()
  end
end
