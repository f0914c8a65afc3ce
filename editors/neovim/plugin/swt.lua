-- Shows what `swt check --json` tells of a script as diagnostics, each time the script is written.
local space = vim.api.nvim_create_namespace("swt")

local function diagnostic(told)
  local words = told.message
  if told.hint ~= vim.NIL then
    words = words .. "\n" .. told.hint
  end
  return {
    lnum = told.line - 1,
    col = told.column - 1,
    end_lnum = told["end"].line - 1,
    end_col = told["end"].column - 1,
    code = told.code,
    severity = told.code:sub(1, 1) == "V" and vim.diagnostic.severity.WARN or vim.diagnostic.severity.ERROR,
    source = "swt",
    message = words,
  }
end

vim.api.nvim_create_autocmd("BufWritePost", {
  pattern = "*/workflows/*.swift",
  callback = function(event)
    local found = {}
    for _, line in ipairs(vim.fn.systemlist({ "swt", "check", "--json", event.match })) do
      local is_json, told = pcall(vim.json.decode, line)
      if is_json then
        table.insert(found, diagnostic(told))
      end
    end
    vim.diagnostic.set(space, event.buf, found)
  end,
})
