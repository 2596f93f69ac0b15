-- The language server of um in Neovim's built-in client, 0.7 or later.
-- vim.g.um_command is the command that starts it, a list of words; otherwise it is { "um", "lsp" }.
local M = {}

function M.command()
  return vim.g.um_command or { "um", "lsp" }
end

local clients = {}

-- Starts the server for a buffer, or joins one that runs for the same folder.
function M.start(buffer)
  local command = M.command()
  if vim.fn.executable(command[1]) == 0 then
    vim.notify_once("um: there is no program " .. command[1] .. "; vim.g.um_command names it", vim.log.levels.WARN)
    return
  end
  local folder = vim.fn.fnamemodify(vim.api.nvim_buf_get_name(buffer), ":p:h")
  local config = { name = "um", cmd = command, root_dir = folder, on_attach = M.attach }
  if vim.lsp.start then
    return vim.lsp.start(config, { bufnr = buffer })
  end
  if not clients[folder] or vim.lsp.client_is_stopped(clients[folder]) then
    clients[folder] = vim.lsp.start_client(config)
  end
  vim.lsp.buf_attach_client(buffer, clients[folder])
  return clients[folder]
end

-- What later versions of Neovim set by themselves: completion, and CTRL-] to the declaration.
function M.attach(_, buffer)
  vim.bo[buffer].omnifunc = "v:lua.vim.lsp.omnifunc"
  if vim.lsp.tagfunc then
    vim.bo[buffer].tagfunc = "v:lua.vim.lsp.tagfunc"
  end
  vim.api.nvim_buf_set_keymap(buffer, "n", "K", "<Cmd>lua vim.lsp.buf.hover()<CR>", { noremap = true, silent = true })
end

return M
