-- Neovim: starts `flight_tools lsp` for rule texts, schedules and scenarios if the program is on PATH. `vim.g.needlemauve_server` may have
-- other words, such as { '/opt/bin/flight_tools', 'lsp' }, or false for no server. Vim reads no Lua here.
if vim.g.loaded_needlemauve or not vim.api.nvim_create_autocmd then
  return
end
vim.g.loaded_needlemauve = true

vim.api.nvim_create_autocmd('FileType', {
  group = vim.api.nvim_create_augroup('needlemauve', {}),
  pattern = { 'lcrules', 'lcschedule', 'lcscenario' },
  callback = function(event)
    require('needlemauve').start(event.buf)
  end,
})
