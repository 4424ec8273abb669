-- an array shuffled by a congruential function
local a = {}
for i = 1, 1000 do a[i] = i end
local k = 1
for j = 1, 500 do
  for i = 1, 1000 do
    k = (k * 171 + 11213) % 53125
    local n = k % 1000 + 1
    local m = a[i]
    a[i] = a[n]
    a[n] = m
  end
end
print(string.format("%10d%10d", a[1], a[1000]))
