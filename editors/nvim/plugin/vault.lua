-- Starts the language server `vault lsp` for Vault files. With Neovim 0.10 and later the keys that are held stand at the end of each line.
-- The list g:vault_lsp_options has more words for the server, as { "--seconds", "30" }.
local function command()
  local here = debug.getinfo(1, "S").source:sub(2)
  local beside = vim.fn.fnamemodify(here, ":p:h:h:h:h") .. "/bin/vault"
  return vim.fn.executable(beside) == 1 and beside or "vault"
end

local vault = command()
local client

local function command_line()
  return vim.list_extend({ vault, "lsp" }, vim.g.vault_lsp_options or {})
end

local function attach(buffer)
  local settings = { name = "vault", cmd = command_line(), root_dir = vim.fn.fnamemodify(vim.api.nvim_buf_get_name(buffer), ":p:h") }
  if vim.lsp.start then
    vim.lsp.start(settings, { bufnr = buffer })
  else
    client = client or vim.lsp.start_client(settings)
    vim.lsp.buf_attach_client(buffer, client)
  end
  if vim.lsp.inlay_hint then
    vim.lsp.inlay_hint.enable(true, { bufnr = buffer })
  end
end

vim.api.nvim_create_autocmd("FileType", {
  pattern = "vault",
  callback = function(event)
    attach(event.buf)
  end,
})
