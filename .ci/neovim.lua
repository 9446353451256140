-- Neovim as a client: `PATTERNS=PROGRAM FILE=FILE nvim --headless --clean -c 'luafile .ci/neovim.lua'`. It opens the file, writes what is
-- reported, fixes what can be fixed in its first line, formats it, fixes all, and saves it.
local function run()
  vim.o.swapfile = false
  vim.cmd("edit " .. vim.fn.fnameescape(vim.env.FILE))
  local buffer = vim.api.nvim_get_current_buf()
  vim.bo.filetype = "patterns"
  local client = vim.lsp.start_client({ name = "patterns", cmd = { vim.env.PATTERNS, "server" }, root_dir = vim.fn.getcwd() })
  vim.lsp.buf_attach_client(buffer, client)
  assert(vim.wait(60000, function() return #vim.diagnostic.get(buffer) > 0 end, 50), "nothing is reported")

  -- What the server answers to a request about the document.
  local function asked(method, params)
    params.textDocument = { uri = vim.uri_from_bufnr(buffer) }
    local results, problem = vim.lsp.buf_request_sync(buffer, method, params, 60000)
    assert(results, problem)
    local _, answer = next(results)
    assert(answer.result, vim.inspect(answer))
    return answer.result
  end

  for _, one in ipairs(vim.diagnostic.get(buffer)) do
    io.stdout:write(("%d: %s\n"):format(one.lnum + 1, (one.message:gsub("\n.*", ""))))
  end
  local first = { start = { line = 0, character = 0 }, ["end"] = { line = 0, character = 999 } }
  local actions = asked("textDocument/codeAction", { range = first, context = { diagnostics = {} } })
  io.stdout:write(actions[1].title .. "\n")
  vim.lsp.util.apply_workspace_edit(actions[1].edit, "utf-16")
  local edits = asked("textDocument/formatting", { options = { tabSize = 4, insertSpaces = true } })
  vim.lsp.util.apply_text_edits(edits, buffer, "utf-16")
  actions = asked("textDocument/codeAction", { range = first, context = { diagnostics = {}, only = { "source.fixAll" } } })
  io.stdout:write(actions[1].title .. "\n")
  vim.lsp.util.apply_workspace_edit(actions[1].edit, "utf-16")
  vim.cmd("write")
end

local is_done, problem = pcall(run)
if not is_done then io.stdout:write(tostring(problem) .. "\n") end
vim.cmd(is_done and "quitall!" or "cquit")
