-- Asks a language server in headless Neovim what tools/lsp_clients wants to know, and writes the answers down.
local file = assert(io.open(vim.env.EDD_ASKED))
local asked = vim.fn.json_decode(file:read("*a"))
file:close()

local PATIENCE = 60000
local answers = {}

local function wait(test)
  return vim.wait(PATIENCE, test, 20)
end

vim.cmd("edit " .. vim.fn.fnameescape(asked.file))
local buffer = vim.api.nvim_get_current_buf()
local number = vim.lsp.start_client({
  name = "edd",
  cmd = asked.server,
  root_dir = asked.folder,
  on_exit = function(status) answers.status = status end,
})
vim.lsp.buf_attach_client(buffer, number)
local client = vim.lsp.get_client_by_id(number)

local function text()
  return table.concat(vim.api.nvim_buf_get_lines(buffer, 0, -1, true), "\n") .. "\n"
end

local function params(place)
  vim.api.nvim_win_set_cursor(0, { place.line + 1, place.byte })
  return vim.lsp.util.make_position_params(0, client.offset_encoding)
end

local function ask(method, more)
  local all = vim.lsp.buf_request_sync(buffer, "textDocument/" .. method, more, PATIENCE) or {}
  local answer = all[number] or {}
  assert(not answer.error, vim.inspect(answer.error))
  return answer.result
end

local function shown()
  local made = {}
  for _, it in ipairs(vim.diagnostic.get(buffer)) do
    table.insert(made, { line = it.lnum, message = it.message })
  end
  return made
end

wait(function() return #vim.diagnostic.get(buffer) > 0 end)
answers.diagnostics = shown()

local range = params(asked.mistake)
range.range = { start = range.position, ["end"] = range.position }
range.context = { diagnostics = {} }
for _, action in ipairs(ask("codeAction", range) or {}) do
  vim.lsp.util.apply_workspace_edit(action.edit, client.offset_encoding)
  break
end
answers.is_mended = wait(function() return #vim.diagnostic.get(buffer) == 0 end)
answers.mended = text()

answers.hover = ask("hover", params(asked.used)).contents.value
answers.declared = ask("definition", params(asked.used)).range.start.line
answers.labels = {}
for _, it in ipairs(ask("completion", params(asked.begun)).items) do
  table.insert(answers.labels, it.label)
end

local renaming = params(asked.used)
renaming.newName = asked.name
vim.lsp.util.apply_workspace_edit(ask("rename", renaming), client.offset_encoding)
answers.renamed = text()

local formatting = vim.lsp.util.make_formatting_params({})
vim.lsp.util.apply_text_edits(ask("formatting", formatting), buffer, client.offset_encoding)
answers.formatted = text()
answers.edits_left = #ask("formatting", formatting)

vim.lsp.stop_client(number)
wait(function() return answers.status ~= nil end)
file = assert(io.open(vim.env.EDD_ANSWERS, "w"))
file:write(vim.fn.json_encode(answers))
file:close()
vim.cmd("qall!")
