-- The client of `flight_tools lsp` in Neovim. One server serves all rule texts, schedules and scenarios, so that a scenario may use
-- the names of the rule texts that are open.
local M = {}

local NAME = 'flight_tools'
-- The client's number, for a Neovim before 0.8, which has no `vim.lsp.start`.
local running

-- The words that start the server, or nil if there is no such program or none is to be started.
function M.command()
  local words = vim.g.needlemauve_server
  if words == nil then
    words = { 'flight_tools', 'lsp' }
  end
  if type(words) == 'table' and vim.fn.executable(words[1]) == 1 then
    return words
  end
end

local function reuse(client, config)
  return client.name == config.name
end

-- What a later Neovim sets by itself.
local functions = {
  formatexpr = 'v:lua.vim.lsp.formatexpr()',
  omnifunc = 'v:lua.vim.lsp.omnifunc',
  tagfunc = 'v:lua.vim.lsp.tagfunc',
}

local function set_functions(_, buffer)
  for option, value in pairs(functions) do
    if vim.bo[buffer][option] == '' then
      vim.bo[buffer][option] = value
    end
  end
end

local function attach_to_one(config, buffer)
  local client = running and vim.lsp.get_client_by_id(running)
  if not client or client.is_stopped() then
    running = vim.lsp.start_client(vim.tbl_extend('force', config, { on_attach = set_functions }))
  end
  if running then
    vim.lsp.buf_attach_client(buffer, running)
  end
end

-- Attaches a buffer to the server, which is started if it does not run.
function M.start(buffer)
  local words = M.command()
  if not words or vim.bo[buffer].buftype ~= '' then
    return
  end
  local config = { name = NAME, cmd = words }
  if vim.lsp.start then
    vim.lsp.start(config, { bufnr = buffer, reuse_client = reuse })
  else
    attach_to_one(config, buffer)
  end
end

return M
