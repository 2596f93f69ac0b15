-- Starts the language server for a file of the language. vim.g.um_no_server = true leaves it out.
if not vim.g.um_no_server then
  require("um").start(vim.api.nvim_get_current_buf())
end
