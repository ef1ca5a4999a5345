-- Drives Neovim through the model, by the keys that docs/EDITORS.md gives, and prints what it shows: a line for each step.
local function out(name, words)
  io.stdout:write(name .. ': ' .. words .. '\n')
end

local function keys(text)
  vim.api.nvim_feedkeys(vim.api.nvim_replace_termcodes(text, true, false, true), 'mtx', false)
end

local function stand(text, more)
  vim.fn.cursor(1, 1)
  vim.fn.search('\\V' .. text)
  vim.fn.cursor(vim.fn.line('.'), vim.fn.col('.') + (more or 0))
end

local function wait(is_there)
  return vim.wait(60000, is_there, 20)
end

local function diagnostics()
  local found = {}
  for _, d in ipairs(vim.diagnostic.get(0)) do
    found[#found + 1] = string.format('%d:%d-%d:%d %s %s', d.lnum + 1, d.col + 1, d.end_lnum + 1, d.end_col + 1, tostring(d.code), d.message)
  end
  return #found == 0 and 'none' or table.concat(found, ' | ')
end

local function floating()
  for _, window in ipairs(vim.api.nvim_list_wins()) do
    if vim.api.nvim_win_get_config(window).relative ~= '' then
      return window
    end
  end
end

local function asked(method)
  for _, reply in pairs(vim.lsp.buf_request_sync(0, method, vim.lsp.util.make_position_params(), 60000) or {}) do
    return reply.result
  end
end

local function completed(text, more)
  stand(text, more)
  local reply, found = asked('textDocument/completion'), {}
  for _, item in ipairs(reply and reply.items or {}) do
    found[#found + 1] = item.label
  end
  return table.concat(found, ' ')
end

local function called(text, more)
  stand(text, more)
  local reply = asked('textDocument/signatureHelp')
  return reply and string.format('%s | %d', reply.signatures[1].label, reply.activeParameter) or 'none'
end

local function drive()
  wait(function() return next(vim.lsp.buf_get_clients(0)) ~= nil end)
  wait(function() return asked('textDocument/documentSymbol') ~= nil end)
  out('filetype', vim.bo.filetype)
  out('at first', diagnostics())

  stand('count++')
  keys('Icoutn = 1; <Esc>')
  wait(function() return #vim.diagnostic.get(0) > 0 end)
  out('a slip', diagnostics())
  keys('0ftxp')
  wait(function() return #vim.diagnostic.get(0) == 0 end)
  out('mended', vim.fn.getline('.') .. ' | ' .. diagnostics())
  keys('^3dW')

  stand('box.high', 5)
  keys('K')
  wait(floating)
  local window = floating()
  out('hover', table.concat(vim.api.nvim_buf_get_lines(vim.api.nvim_win_get_buf(window), 0, -1, true), ' / '))
  vim.api.nvim_win_close(window, true)

  keys('gd')
  wait(function() return vim.fn.line('.') == 2 end)
  out('definition', vim.fn.line('.') .. ':' .. vim.fn.col('.'))

  stand('count <')
  keys('gr')
  wait(function() return #vim.fn.getqflist() > 0 end)
  local places = {}
  for _, item in ipairs(vim.fn.getqflist()) do
    places[#places + 1] = item.lnum .. ':' .. item.col
  end
  out('references', table.concat(places, ' '))
  vim.cmd('cclose')

  vim.ui.input = function(_, answer) answer('total') end
  stand('byte count', 5)
  keys('<F2>')
  wait(function() return vim.fn.getline('.') == 'byte total;' end)
  local lines = {}
  for number, text in ipairs(vim.api.nvim_buf_get_lines(0, 0, -1, true)) do
    if text:find('total') then
      lines[#lines + 1] = number .. ' ' .. vim.trim(text)
    end
  end
  out('rename', table.concat(lines, ' | '))
  wait(function() return asked('textDocument/hover') ~= nil end)
  out('then', diagnostics())
  if next(vim.lsp.buf_get_clients(0)) and vim.lsp.get_active_clients()[1].server_capabilities.completionProvider then
    out('fields', completed('box.high', 4))
    out('proctypes', completed('run Sender', 4))
    out('called', called('run Sender', 11))
  end
  vim.cmd('qa!')
end

vim.api.nvim_create_autocmd('VimEnter', { callback = function()
  vim.defer_fn(function()
    local is_right, why = pcall(drive)
    if not is_right then
      out('error', tostring(why))
      vim.cmd('cq!')
    end
  end, 50)
end })
