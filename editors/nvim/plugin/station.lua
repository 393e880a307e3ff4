-- Neovim 0.7 to 0.10: copy to ~/.config/nvim/plugin/station.lua, beside the folders of
-- editors/vim, which know the file type. From 0.11 on take lsp/station.lua instead.
if vim.lsp.enable then
  return
end

local config = { name = 'station', cmd = { 'station', 'lsp' } }
local client

-- Neovim 0.7 has no vim.lsp.start: one client for all buffers, started again if it is gone.
local function attach_0_7()
  if not (client and vim.lsp.get_client_by_id(client)) then
    client = vim.lsp.start_client(config)
  end
  if client then
    vim.lsp.buf_attach_client(vim.api.nvim_get_current_buf(), client)
    vim.bo.omnifunc = 'v:lua.vim.lsp.omnifunc'
  end
end

vim.api.nvim_create_autocmd('FileType', {
  pattern = 'station',
  callback = function()
    if vim.fn.executable(config.cmd[1]) == 0 then
      vim.notify_once('station: the command is not on the path', vim.log.levels.WARN)
    elseif vim.lsp.start then
      vim.lsp.start(config)
    else
      attach_0_7()
    end
  end,
})
