-- the standard library of Lua, its numbers, tables, strings and coroutines
local function sieve(n)
    local composite, primes = {}, {}
    for i = 2, n do
        if not composite[i] then
            primes[#primes + 1] = i
            for j = i * i, n, i do composite[j] = true end
        end
    end
    return primes
end
local primes = sieve(2000)
print(#primes, primes[#primes], string.format("%5.3f|%-6s|%q|%x", math.pi, "ab", "a\nb", 48879))

local words = {}
for word in ("the quick brown fox jumps over the lazy dog"):gmatch("%a+") do words[#words + 1] = word end
table.sort(words)
print(table.concat(words, " "), #words)
print(("x=1, y=22"):gsub("(%w)=(%d+)", "%2:%1"))
print(2^0.5, 7 // 2, 7 % -3, -7 // 2, 1e15, 2^53, 10 / 2, 1 << 40, math.tointeger(3.0))

local numbers = coroutine.wrap(function() for i = 1, 5 do coroutine.yield(i * i) end end)
local sum = 0
for square in numbers do sum = sum + square; if square == 25 then break end end
print("squares", sum)
print(pcall(function() error({ code = 7 }) end), select("#", pcall(error, "text")))
local object = setmetatable({}, { __index = function(_, key) return key .. "!" end, __call = function(_, a, b) return a + b end })
print(object.name, object(20, 22), #string.rep("ab", 1000, ","), utf8.char(955, 8364), utf8.len("λ€"))
local text = {}
for i = 1, 20000 do text[i] = tostring(i) end
local joined = table.concat(text)
local hash = 0
for i = 1, #joined do hash = (hash * 31 + joined:byte(i)) & 0xffffffff end
print(#joined, hash)
collectgarbage()
print(load("local a, b = ... ; return a * b")(6, 7), os.getenv("NOT_THERE"), type(os.time()))
print("end of tests")
