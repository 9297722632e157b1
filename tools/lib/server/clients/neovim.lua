-- What someone does in Neovim with rule texts, by its own client. Writes what was seen, as one JSON object, to the file SEEN.
local folder, seen = vim.env.FOLDER, {}

local function text()
  return table.concat(vim.api.nvim_buf_get_lines(0, 0, -1, false), '\n') .. '\n'
end

-- Waits until a test is met, ten seconds at most, and returns its last answer.
local function wait(test)
  local found
  vim.wait(10000, function()
    found = test()
    return found
  end, 10)
  return found
end

local function diagnostics()
  local found = {}
  for _, it in ipairs(vim.diagnostic.get(0)) do
    if it.severity <= vim.diagnostic.severity.WARN then
      table.insert(found, { it.lnum + 1, it.col + 1, it.end_col + 1, it.severity, it.message })
    end
  end
  return found
end

local function wait_for_diagnostics(count)
  wait(function()
    return #diagnostics() == count
  end)
  return diagnostics()
end

local function place(word, more)
  vim.fn.cursor(1, 1)
  vim.fn.search('\\V' .. word, 'c')
  if more then
    vim.fn.cursor(vim.fn.line('.'), vim.fn.col('.') + more)
  end
end

local function ask(method, more)
  local params = vim.tbl_extend('force', vim.lsp.util.make_position_params(0, 'utf-16'), more or {})
  for _, answer in pairs(vim.lsp.buf_request_sync(0, method, params, 10000) or {}) do
    return answer.result
  end
end

local function format()
  if vim.lsp.buf.format then
    vim.lsp.buf.format({ timeout_ms = 10000 })
  else
    vim.lsp.buf.formatting_sync(nil, 10000)
  end
end

local function text_of_float()
  for _, window in ipairs(vim.api.nvim_list_wins()) do
    if vim.api.nvim_win_get_config(window).relative ~= '' then
      return table.concat(vim.api.nvim_buf_get_lines(vim.api.nvim_win_get_buf(window), 0, -1, false), '\n')
    end
  end
end

-- The one choice is taken where an editor would ask.
vim.ui.select = function(items, _, choose)
  seen.choices = #items
  choose(items[1], 1)
end

local function rules()
  vim.cmd('edit ' .. folder .. '/bus.rules')
  seen.filetype = vim.bo.filetype
  seen.mistake = wait_for_diagnostics(1)
  place('VOLT <')
  vim.lsp.buf.code_action()
  wait(function()
    return not text():find('VOLT <', 1, true)
  end)
  seen.fixed, seen.rest = text(), wait_for_diagnostics(0)
  vim.fn.append('$', 'rule HOT active fails 1 sequence 8 event info 1002 "" when VO')
  vim.fn.cursor(vim.fn.line('$'), 1)
  vim.cmd('startinsert!')
  vim.fn.cursor(vim.fn.line('$'), 1000)
  seen.completion = {}
  local list = ask('textDocument/completion', { position = { line = vim.fn.line('$') - 1, character = #vim.fn.getline('$') } })
  for _, it in ipairs(list and (list.items or list) or {}) do
    table.insert(seen.completion, it.label)
  end
  vim.cmd('stopinsert')
  vim.fn.setline('$', (vim.fn.getline('$'):gsub('VO$', 'VOLTS > 9;')))
  seen.completed = wait_for_diagnostics(0)
  place('VOLTS <', 1)
  vim.lsp.buf.hover()
  seen.hover = wait(text_of_float)
  vim.cmd('doautocmd CursorMoved')
  place('BUS u16be')
  vim.lsp.buf.rename('MAIN_BUS')
  wait(function()
    return not text():find(' BUS ', 1, true)
  end)
  seen.renamed = text()
  format()
  seen.formatted = text()
  vim.cmd('silent write')
  seen.saved = wait_for_diagnostics(1)
end

local function scenario()
  vim.cmd('edit ' .. folder .. '/low.scenario')
  seen.scenario = wait_for_diagnostics(1)
  place('VOLTS=')
  vim.lsp.buf.definition()
  wait(function()
    return vim.fn.expand('%:t') == 'bus.rules'
  end)
  seen.definition = { vim.fn.expand('%:t'), vim.fn.line('.'), vim.fn.col('.') }
end

local is_done, fault = pcall(function()
  rules()
  scenario()
  local clients = vim.lsp.get_active_clients()
  seen.clients = #clients
  vim.lsp.stop_client(clients)
  seen.stopped = wait(function()
    return #vim.lsp.get_active_clients() == 0
  end)
end)
seen.fault = not is_done and tostring(fault) or nil
vim.fn.writefile({ vim.fn.json_encode(seen) }, vim.env.SEEN)
vim.cmd('qall!')
