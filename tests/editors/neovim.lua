-- Types the lines of a file into Neovim, one after the other, and writes what is seen after each.
--
-- The file LINES has a command a line; SEEN gets, for each, a line with the command and then what it printed. After a
-- command the server has judged the document before the next one is typed.
local out = io.open(os.getenv("SEEN"), "w")
dofile(os.getenv("EDITORS") .. "/nvim.lua")

local function count() return UnityJudged[vim.uri_from_bufnr(0)] or 0 end

local function text() return table.concat(vim.api.nvim_buf_get_lines(0, 0, -1, false), "\n") end

local function settled(before, old)
  vim.wait(300000, function()
    local changed = text() ~= old
    return count() > before or (not changed and count() > 0)
  end, 20)
end

for line in io.lines(os.getenv("LINES_OF")) do
  local before, old = count(), text()
  local fine, said = pcall(vim.fn.execute, line)
  settled(before, old)
  out:write(line .. "\n" .. vim.trim(tostring(said)) .. "\n")
  if not fine then break end
end
out:close()
vim.cmd("qa!")
