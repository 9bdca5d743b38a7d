-- A session in a headless Neovim: opens a file with a fault, looks at it, takes the first cure, and lays the text out; then opens a module, which is
-- judged beside its interface. What it sees goes to the file that the variable SEEN names, a line each. A busy machine may take long for each step.
local PATIENCE = 600000
local seen = io.open(os.getenv("SEEN"), "w")
local function say(text)
  seen:write(text .. "\n")
end
local function wait(done)
  if not vim.wait(PATIENCE, done, 50) then
    say("waited in vain")
  end
end

local function request(method, params)
  params.textDocument = { uri = vim.uri_from_bufnr(0) }
  for _, answer in pairs(vim.lsp.buf_request_sync(0, method, params, PATIENCE) or {}) do
    return answer.result
  end
end

local function errors()
  for _, it in ipairs(vim.diagnostic.get(0)) do
    say(string.format("error %d:%d %s", it.lnum + 1, it.col + 1, it.message))
  end
  local fault = vim.diagnostic.get(0)[1]
  return { line = fault.lnum, character = fault.col }
end

local function cure(here)
  local found = request("textDocument/codeAction", { range = { start = here, ["end"] = here }, context = { diagnostics = {} } })[1]
  say("cure " .. found.title)
  vim.lsp.util.apply_workspace_edit(found.edit, "utf-16")
  wait(function()
    return #vim.diagnostic.get(0) == 0
  end)
  say("errors left " .. #vim.diagnostic.get(0))
end

-- a program
vim.cmd("edit " .. os.getenv("FILE"))
say("filetype " .. vim.bo.filetype)
wait(function()
  return #vim.diagnostic.get(0) > 0
end)
local here = errors()
say("hover " .. request("textDocument/hover", { position = here }).contents.value:gsub("\n", " "))
for _, it in ipairs(request("textDocument/inlayHint", { range = { start = { line = 0, character = 0 }, ["end"] = { line = 99, character = 0 } } }) or {}) do
  say(string.format("hint %d %s", it.position.line + 1, it.label))
end
cure(here)
vim.api.nvim_buf_set_lines(0, 0, 0, false, { "// first", "", "" })
local edits = request("textDocument/formatting", { options = {} }) or {}
say("edits of the layout " .. #edits)
vim.lsp.util.apply_text_edits(edits, 0, "utf-16")
say("first lines " .. table.concat(vim.api.nvim_buf_get_lines(0, 0, 3, false), "|"))

-- a module
vim.cmd("edit! " .. os.getenv("MODULE"))
wait(function()
  return #vim.diagnostic.get(0) > 0
end)
here = errors()
cure(here)
seen:close()
vim.cmd("qa!")
