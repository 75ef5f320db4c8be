-- The recipes over a row of pixels for LuaJIT, whose numbers are doubles: every sum and product here is exact, and the
-- remainder by 2^32, or tobit where there is a sign, leaves what ints of 32 bits leave.

local bit = require("bit")
local band, rshift, tobit, floor = bit.band, bit.rshift, bit.tobit, math.floor

return {
    ["recipe-8"] = function(r, g, b, out)
        for i = 1, #r do
            out[i] = rshift(r[i] * 3 + g[i], 2)
        end
    end,

    ["recipe-40"] = function(r, g, b, out)
        for i = 1, #r do
            local mix = floor((r[i] * 299 + g[i] * 587 + b[i] * 114 + 500) % 4294967296 / 1000)
            local more = tobit((r[i] - mix) * 40)
            -- cut toward zero
            more = more < 0 and -floor(-more / 100) or floor(more / 100)
            local value = tobit(more + mix - 16)
            if value < 0 then
                value = 0
            elseif value > 255 then
                value = 255
            end
            out[i] = value
        end
    end,

    ["recipe-250"] = function(r, g, b, out)
        for i = 1, #r do
            local x, y = (r[i] + g[i] + b[i]) % 4294967296 / 765, 0
            for _ = 1, 8 do
                y = (((y * x + 0.5) * x + -0.125) * x + 0.25) * 0.5 + y * 0.5
            end
            -- y is not negative
            out[i] = band(floor(y * 255), 255)
        end
    end,
}
