-- Queens, tables, strings and a sort, for the Lua that is built here.

-- The number of ways to put `size` queens on a board where none attacks another.
local function queens(size)
  local columns, rising, falling, found = {}, {}, {}, 0
  local function place(row)
    if row > size then
      found = found + 1
      return
    end
    for column = 1, size do
      local up, down = row + column, row - column
      if not (columns[column] or rising[up] or falling[down]) then
        columns[column], rising[up], falling[down] = true, true, true
        place(row + 1)
        columns[column], rising[up], falling[down] = nil, nil, nil
      end
    end
  end
  place(1)
  return found
end

for size = 1, 6 do
  print(size .. " queens", queens(size))
end

-- How often each word occurs in a text, by its number and then by its letters.
local text = [[
The Counterflow Pipeline Processor has two pipes. Instructions flow up one pipe, results flow down the other pipe,
and an instruction meets each result that it needs on its way.]]
local counts = {}
for word in text:lower():gmatch("%a+") do
  counts[word] = (counts[word] or 0) + 1
end
local words = {}
for word in pairs(counts) do
  words[#words + 1] = word
end
table.sort(words, function(left, right)
  if counts[left] ~= counts[right] then
    return counts[left] > counts[right]
  end
  return left < right
end)
for at = 1, 5 do
  print(string.format("%-12s %d", words[at], counts[words[at]]))
end

-- Numbers of a simple generator, sorted, and what is computed of them.
local numbers, last = {}, 1
for at = 1, 500 do
  last = last * 16807 % 2147483647
  numbers[at] = last % 1000
end
table.sort(numbers)
local sum = 0
for at, number in ipairs(numbers) do
  assert(at == 1 or numbers[at - 1] <= number)
  sum = sum + number
end
print(numbers[1], numbers[#numbers], sum, sum / #numbers, math.sqrt(sum))

-- Strings, errors that are caught, coroutines and closures.
print(("counterflow"):rep(2, "-"):upper():reverse():sub(1, 11), #text, ("%x"):format(48879), 7 // 2, 7.5 % 2, 1 << 40)
print((pcall(error, { code = 7 })), select(2, pcall(function() local none; return none.field end)))
local squares = coroutine.wrap(function()
  for number = 1, 4 do
    coroutine.yield(number * number)
  end
end)
print(squares(), squares(), squares(), squares())
