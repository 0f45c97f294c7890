-- UNITY documents in Neovim, of version 0.7 or later: dofile("FOLDER/editors/nvim.lua") in the settings.
--
-- It starts the language server beside it for each document, and has commands: UnityWhy, UnityRun, UnitySpin,
-- UnityProve, UnityStart, UnityUsing and UnityDrop, each for the step at the cursor.
local here = vim.fn.fnamemodify(debug.getinfo(1, "S").source:sub(2), ":p:h")
local tool = vim.fn.fnamemodify(here, ":h") .. "/scripts/unity-tool"
local client_of_all
-- how long an action may take, in milliseconds
local PATIENCE = 300000

vim.cmd("autocmd BufNewFile,BufRead *.unity set filetype=unity")
vim.cmd("autocmd FileType unity lua UnityAttach()")

-- How often the server has judged a document, by its address.
UnityJudged = {}

local function judged(_, result)
  UnityJudged[result.uri] = (UnityJudged[result.uri] or 0) + 1
end

function UnityAttach()
  vim.cmd("runtime! syntax/unity.vim")
  if vim.fn.exists("b:current_syntax") == 0 then vim.cmd("source " .. vim.fn.fnameescape(here .. "/unity.vim")) end
  client_of_all = client_of_all or vim.lsp.start_client({
    cmd = { "python3", tool, "lsp" }, name = "unity", root_dir = vim.fn.getcwd(),
    handlers = { ["$/unity/judged"] = judged },
    on_exit = function() client_of_all = nil end,
  })
  if client_of_all then vim.lsp.buf_attach_client(0, client_of_all) end
  vim.bo.omnifunc = "v:lua.vim.lsp.omnifunc"
  local keys = { K = "hover", gd = "definition", gr = "references" }
  for key, act in pairs(keys) do
    vim.api.nvim_buf_set_keymap(0, "n", key, "<cmd>lua vim.lsp.buf." .. act .. "()<CR>", { noremap = true })
  end
end

-- What was found of the line at the cursor.
function UnityWhy()
  local line = vim.fn.line(".") - 1
  for _, found in ipairs(vim.diagnostic.get(0)) do
    if found.lnum <= line and line <= (found.end_lnum or found.lnum) then print(found.message) end
  end
end

-- An action of the server; its text comes as an edit, and its word is printed.
function UnityAct(name)
  local place = { line = vim.fn.line(".") - 1, character = vim.fn.col(".") - 1 }
  local words = { command = "unity." .. name, arguments = { vim.uri_from_bufnr(0), place } }
  local answers = vim.lsp.buf_request_sync(0, "workspace/executeCommand", words, PATIENCE)
  for _, answer in pairs(answers or {}) do
    print(answer.result and answer.result.says or answer.error and answer.error.message or "no answer")
  end
end

vim.cmd("command! UnityWhy lua UnityWhy()")
for command, name in pairs({ UnityRun = "run", UnitySpin = "spin", UnityProve = "prove", UnityStart = "start",
                             UnityUsing = "using", UnityDrop = "drop" }) do
  vim.cmd("command! " .. command .. " lua UnityAct('" .. name .. "')")
end
