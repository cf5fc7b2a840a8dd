-- For bench/pictures.sh: neovim over FILE, with the server that FILGORDD names, as docs/GUIDE.md starts it.
vim.o.number = true
vim.o.laststatus = 0
vim.o.ruler = false
vim.o.swapfile = false
vim.opt.shortmess:append("FI")
vim.lsp.handlers["textDocument/hover"] = vim.lsp.with(vim.lsp.handlers.hover, { border = "single" })
vim.api.nvim_create_autocmd("FileType", {
  pattern = "rust",
  callback = function()
    local client = vim.lsp.start_client({ name = "filgordd", cmd = { vim.env.FILGORDD, "lsp" } })
    vim.lsp.buf_attach_client(0, client)
  end,
})
vim.api.nvim_create_autocmd("DiagnosticChanged", {
  once = true,
  callback = function()
    vim.fn.search("point!(origin)")
    vim.lsp.buf.hover()
  end,
})
