-- Findings of asl lint while a definition is written.
vim.api.nvim_create_autocmd({ "BufRead", "BufNewFile" }, {
  pattern = "*.asl.json",
  callback = function(event)
    vim.lsp.start({ name = "asl", cmd = { "asl", "lsp" }, root_dir = vim.fs.dirname(event.match) })
  end,
})
