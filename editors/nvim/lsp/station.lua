-- Neovim 0.11 or later: copy to ~/.config/nvim/lsp/station.lua, then
--   vim.filetype.add({ extension = { script = 'station' } })
--   vim.lsp.enable('station')
return {
  cmd = { 'station', 'lsp' },
  filetypes = { 'station' },
}
