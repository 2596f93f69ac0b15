-- Drives Neovim for test_lsp_neovim.py: opens files with the language server and writes down what it shows.
-- The plan is a JSON file that UM_PLAN names: a list of files with places, each a line and a byte, counted from 1 and
-- 0. The results go to the file that UM_RESULTS names.
local WAIT = 300000

-- The keys that go to a declaration wait for a second, which is too little on a machine that has much else to do.
local ask = vim.lsp.buf_request_sync
vim.lsp.buf_request_sync = function(buffer, method, params)
  return ask(buffer, method, params, WAIT)
end

local function waited(what, test)
  assert(vim.wait(WAIT, test, 10), "it took too long: " .. what)
end

local function go(place)
  vim.api.nvim_win_set_cursor(0, { place[1], place[2] })
end

-- The lines of the window that floats, which is closed then.
local function floating()
  local found
  waited("hover", function()
    for _, window in ipairs(vim.api.nvim_list_wins()) do
      if vim.api.nvim_win_get_config(window).relative ~= "" then
        found = window
        return true
      end
    end
  end)
  local lines = vim.api.nvim_buf_get_lines(vim.api.nvim_win_get_buf(found), 0, -1, false)
  vim.api.nvim_win_close(found, true)
  return lines
end

local function text()
  return table.concat(vim.api.nvim_buf_get_lines(0, 0, -1, false), "\n") .. "\n"
end

local function opened(file)
  local told = false
  local handler = vim.lsp.handlers["textDocument/publishDiagnostics"]
  vim.lsp.handlers["textDocument/publishDiagnostics"] = function(fault, result, ...)
    told = told or result.uri == vim.uri_from_fname(file)
    return handler(fault, result, ...)
  end
  vim.cmd("edit " .. vim.fn.fnameescape(file))
  waited("diagnostics", function() return told end)
  vim.lsp.handlers["textDocument/publishDiagnostics"] = handler
end

local function carried_out(step)
  local result = { filetype = vim.bo.filetype, diagnostics = {} }
  for _, found in ipairs(vim.diagnostic.get(0)) do
    table.insert(result.diagnostics, { found.lnum, found.col, found.end_lnum, found.end_col, found.message,
      found.source, found.severity })
  end
  if step.use then
    go(step.use)
    vim.lsp.buf.hover()
    result.hover = floating()
    vim.lsp.buf.definition()
    waited("definition", function() return not vim.deep_equal(vim.api.nvim_win_get_cursor(0), step.use) end)
    result.definition = vim.api.nvim_win_get_cursor(0)
    waited("keys", function() return vim.fn.maparg("K", "n") ~= "" end)
    go(step.use)
    vim.cmd([[execute "normal! \<C-]>"]])
    result.by_key = vim.api.nvim_win_get_cursor(0)
    go(step.use)
    local before = vim.b.changedtick
    vim.lsp.buf.rename(step.new)
    waited("rename", function() return vim.b.changedtick ~= before end)
    result.renamed = text()
    vim.cmd("silent undo")
  end
  if step.format then
    if vim.lsp.buf.format then
      vim.lsp.buf.format({ timeout_ms = WAIT })
    else
      vim.lsp.buf.formatting_sync({}, WAIT)
    end
    result.formatted = text()
  end
  vim.cmd("edit!")
  return result
end

local results = {}
for _, step in ipairs(vim.fn.json_decode(vim.fn.readfile(vim.env.UM_PLAN))) do
  local ok, result = pcall(function()
    opened(step.file)
    return carried_out(step)
  end)
  results[step.file] = ok and result or { failed = tostring(result) }
end
vim.fn.writefile({ vim.fn.json_encode(results) }, vim.env.UM_RESULTS)
vim.cmd("qall!")
