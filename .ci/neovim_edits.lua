-- Neovim as a client that edits at random: `PATTERNS=PROGRAM FILE=FILE SEED=N nvim --headless --clean -c 'luafile .ci/neovim_edits.lua'`. After each
-- command the symbols of the server have to be the lines of the buffer that are not blank, all of which are patterns.
local COMMANDS = {
  "normal! dd", "normal! Gdd", "normal! p", "normal! yyP", "normal! Gp", "normal! oxy", "normal! Oaé", "normal! x", "normal! A𝄞b", "normal! J",
  "normal! ggO", "normal! Go", "normal! vjd", "normal! Vp", "normal! gg", "normal! G", "normal! j", "normal! cwéé", "normal! dG", "normal! dgg",
  "undo", "redo", "%d", "1,2d", "$d", "$put ='end'", "0put ='first'", "m0", "m$", "copy 0", "copy $", "%s/a/aa/", "%s/\\n//", "set noeol", "set eol",
}

local function symbol(line, last, name) return ("%d:%d:%s"):format(line, last, name) end

-- The symbols that the lines of the buffer have: of a long line its first 60 characters.
local function wanted(buffer)
  local found = {}
  for number, line in ipairs(vim.api.nvim_buf_get_lines(buffer, 0, -1, true)) do
    local _, last = vim.str_utfindex(line)
    local start = vim.fn.strcharpart(line, 0, 60)
    if line:find("%S") then table.insert(found, symbol(number - 1, last, start == line and line or start .. "…")) end
  end
  return table.concat(found, "\n")
end

local function symbols(buffer)
  local params = { textDocument = { uri = vim.uri_from_bufnr(buffer) } }
  local results, problem = vim.lsp.buf_request_sync(buffer, "textDocument/documentSymbol", params, 60000)
  assert(results, problem)
  local _, answer = next(results)
  assert(answer.result, vim.inspect(answer))
  return table.concat(vim.tbl_map(function(it) return symbol(it.range.start.line, it.range["end"].character, it.name) end, answer.result), "\n")
end

local function run()
  vim.o.swapfile = false
  math.randomseed(tonumber(vim.env.SEED))
  vim.cmd("edit " .. vim.fn.fnameescape(vim.env.FILE))
  local buffer = vim.api.nvim_get_current_buf()
  vim.bo.filetype = "patterns"
  local client = vim.lsp.start_client({ name = "patterns", cmd = { vim.env.PATTERNS, "server" }, root_dir = vim.fn.getcwd() })
  vim.lsp.buf_attach_client(buffer, client)
  assert(vim.wait(60000, function() return (vim.lsp.get_client_by_id(client) or {}).initialized end, 50), "not initialized")
  local done = {}
  for _ = 1, 80 do
    table.insert(done, COMMANDS[math.random(#COMMANDS)])
    pcall(vim.cmd, "silent! " .. done[#done])
    local got, lines = symbols(buffer), wanted(buffer)
    assert(got == lines, ("%s:\n%s\nin place of\n%s"):format(table.concat(done, ", "), got, lines))
  end
end

local is_done, problem = pcall(run)
io.stdout:write(is_done and "same\n" or tostring(problem) .. "\n")
vim.cmd(is_done and "quitall!" or "cquit")
