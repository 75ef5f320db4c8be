-- Recipes in Lua over a row of pixels, the loop inside: times, the smallest of so many rounds. 1 where the values are
-- not those of the C.
--
--     bench MODULES --checksums | lua rows.lua TITLE RECIPES ROUNDS

local SEED, PIXELS = 12345, 4096
local NAMES = { ["recipe-8"] = "8 steps", ["recipe-40"] = "40 steps", ["recipe-250"] = "250 steps" }
local ORDER = { "recipe-8", "recipe-40", "recipe-250" }
local floor = math.floor

-- The channels of the pixels that calls.c makes of this seed. The product is under 2^53.
local function pixels(seed)
    local r, g, b = {}, {}, {}
    for i = 1, PIXELS do
        seed = (seed * 1664525 + 1013904223) % 4294967296
        r[i] = floor(seed / 16777216)
        g[i] = floor(seed / 65536) % 256
        b[i] = floor(seed / 256) % 256
    end
    return r, g, b
end

-- As calls.c sums a row's values.
local function checksum(out)
    local sum = 0
    for i = 1, PIXELS do
        sum = (31 * sum + out[i]) % 4294967296
    end
    return sum
end

-- The C's checksums, by the name of the module.
local function wanted()
    local sums = {}
    for line in io.lines() do
        local name, sum = line:match("^(%S+) (%d+)$")
        sums[name] = tonumber(sum)
    end
    return sums
end

-- Seconds of so many rows.
local function timed(recipe, times, r, g, b, out)
    local from = os.clock()
    for _ = 1, times do
        recipe(r, g, b, out)
    end
    return os.clock() - from
end

-- Seconds a pixel. A turn takes a millisecond or more.
local function smallest(recipe, rounds, r, g, b, out)
    local times, least = 1, math.huge
    while timed(recipe, times, r, g, b, out) < 1e-3 do
        times = times * 2
    end
    for _ = 1, rounds do
        least = math.min(least, timed(recipe, times, r, g, b, out) / times / PIXELS)
    end
    return least
end

local title, recipes, rounds, sums = arg[1], dofile(arg[2]), tonumber(arg[3]), wanted()
local r, g, b = pixels(SEED)
print(string.format("\n%-48s %12s", "a row of 4,096 pixels, ns a pixel", title))
for _, name in ipairs(ORDER) do
    local out = {}
    recipes[name](r, g, b, out)
    if checksum(out) ~= sums[name] then
        print(string.format("DIFFERENT in %s, %s: checksum %.0f, wanted %s", title, name, checksum(out), sums[name]))
        os.exit(1)
    end
    print(string.format("  %-46s %12.1f", NAMES[name], 1e9 * smallest(recipes[name], rounds, r, g, b, out)))
end
