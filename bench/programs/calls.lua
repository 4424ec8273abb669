-- calls of a function
local function next1(k) return k + 1 end
local k = 0
for i = 1, 1000000 do k = next1(k) end
print(string.format("%10d", k))
