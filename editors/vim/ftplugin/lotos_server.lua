-- Starts the language server editors/server for a specification, in Neovim. `let g:lotos_server = 0` keeps it from that, and
-- `let g:lotos_program = '/path/to/lotos'` says which program judges.
if vim.g.lotos_server == 0 then
  return
end
local here = vim.loop.fs_realpath(debug.getinfo(1, 'S').source:sub(2))
local server = here:match('^(.*)/vim/ftplugin/[^/]*$') .. '/server'
if vim.fn.executable('python3') == 0 or vim.fn.filereadable(server) == 0 then
  return
end
local command = { 'python3', server }
if vim.g.lotos_program then
  vim.list_extend(command, { '--program', vim.g.lotos_program })
end

local function keys(_, buffer)
  for key, call in pairs({ K = 'hover', gd = 'definition', gO = 'document_symbol' }) do
    vim.keymap.set('n', key, vim.lsp.buf[call], { buffer = buffer })
  end
end

-- One server for all specifications of a session. Older than 0.8, Neovim has no `vim.lsp.start`.
local settings = { name = 'lotos', cmd = command, root_dir = vim.fn.getcwd(), on_attach = keys }
if vim.lsp.start then
  vim.g.lotos_client = vim.lsp.start(settings)
else
  if not vim.g.lotos_client or not vim.lsp.get_client_by_id(vim.g.lotos_client) then
    vim.g.lotos_client = vim.lsp.start_client(settings)
  end
  if vim.g.lotos_client then
    vim.lsp.buf_attach_client(0, vim.g.lotos_client)
  end
end
