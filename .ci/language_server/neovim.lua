-- Edits a text in neovim, beside a language server: 300 random edits, with line ends, brackets and
-- wide characters. The last 100 leave the text in order. Is run by `.ci/lsp`, which says by the
-- environment where and what the server is. At last the folder has `text`, the buffer's text, and
-- `said`: whether the server answers the same about the text and about a copy of it.
local room, ends = vim.env.ROOM, vim.env.LINE_ENDS
local command = vim.fn.json_decode(vim.env.COMMAND)
local published = {}

local function wait(what, is_done)
  if not vim.wait(20000, is_done, 5) then
    error("waited in vain: " .. what)
  end
end

-- Starts the server for the buffer, or lends it the one that runs: its number.
local id
local function start()
  local config = {
    name = "filgordd",
    cmd = command,
    root_dir = room,
    handlers = {
      ["textDocument/publishDiagnostics"] = function(_, result)
        published[result.uri] = result
      end,
    },
  }
  -- Before neovim 0.8 there is no vim.lsp.start, which does both.
  id = id or (vim.lsp.start or vim.lsp.start_client)(config)
  vim.lsp.buf_attach_client(0, id)
end

-- The byte at which each character of a line begins, and the line's end.
local function columns(line)
  local found = {}
  for at = 1, #line do
    local byte = line:byte(at)
    if byte < 0x80 or byte >= 0xC0 then
      found[#found + 1] = at - 1
    end
  end
  found[#found + 1] = #line
  return found
end

local bits = {
  "", "", " ", "x", "é", "e\u{301}", "𝕏", "\n", "\n\n", "(", ")", "{ a }", "{", "}", "[", "]",
  "swap!(p q);", "swap!(1);", "/* ü 🦀 */", "// 𝕏\n", "'a", "\"s\"", "\"🦀\"", "/// é\n", ";\n",
  "macro_rules! 𝕏y { ($a:tt) => { $a } }\n", "𝕏y!(q);\n", "macro é($x:ident) { $x }\n",
}

-- Puts a text in place of a part of a line or of two.
local function replace()
  local count = vim.api.nvim_buf_line_count(0)
  local first = math.random(count) - 1
  local last = math.min(first + (math.random(8) == 1 and 1 or 0), count - 1)
  local lines = vim.api.nvim_buf_get_lines(0, first, last + 1, true)
  local starts, stops = columns(lines[1]), columns(lines[#lines])
  local start, stop = starts[math.random(#starts)], stops[math.random(#stops)]
  if first == last then
    stop = math.random(2) == 1 and start or math.max(start, stop)
  end
  local new = vim.split(bits[math.random(#bits)], "\n", { plain = true })
  vim.api.nvim_buf_set_text(0, first, start, last, stop, new)
end

-- What leaves a text in order, where it is put before a line or behind it.
local whole = {
  "", " ", "x", "é", "𝕏 ", "\n", "{ a }", "swap!(p 𝕏);", "swap!(1);", "/* ü 🦀 */", " 'a ",
  " \"🦀\"", "macro_rules! 𝕏y { ($a:tt) => { $a } }\n", "𝕏y!(q);\n", "𝕏y!();",
  "macro é($x:ident) { $x }\n",
}

local function add()
  local line = math.random(vim.api.nvim_buf_line_count(0)) - 1
  local at = math.random(2) == 1 and 0 or #vim.api.nvim_buf_get_lines(0, line, line + 1, true)[1]
  local new = vim.split(whole[math.random(#whole)], "\n", { plain = true })
  vim.api.nvim_buf_set_text(0, line, at, line, at, new)
end

-- What a user does with keys.
local keys = { "u", "u", "\18", "dd", "yyp", "J", "x", "~", "ddggP", "yyGp", ">>", "xp", "D" }

local function edit()
  if math.random(4) > 1 then
    return replace()
  end
  local line = math.random(vim.api.nvim_buf_line_count(0))
  vim.api.nvim_win_set_cursor(0, { line, 0 })
  vim.cmd("silent! normal! " .. keys[math.random(#keys)])
end

-- Edits so many times, and gives the server time to answer now and then.
local function edit_often(times, change)
  for i = 1, times do
    change()
    if i % 7 == 0 then
      vim.wait(math.random(3) == 1 and 170 or 5)
    end
  end
end

local function text()
  local line_end = ends == "dos" and "\r\n" or "\n"
  return table.concat(vim.api.nvim_buf_get_lines(0, 0, -1, true), line_end) .. line_end
end

-- What the server answers about the text of the buffer.
local function answers()
  local about = { textDocument = vim.lsp.util.make_text_document_params() }
  local asked = vim.lsp.buf_request_sync(0, "textDocument/documentSymbol", about, 20000)
  local uri = vim.uri_from_bufnr(0)
  wait("diagnostics", function() return published[uri] end)
  return { symbols = asked[id].result, diagnostics = published[uri].diagnostics }
end

local function write(name, bytes)
  local file = assert(io.open(room .. "/" .. name, "wb"))
  file:write(bytes)
  file:close()
end

local function open(name)
  vim.cmd("edit ++ff=" .. ends .. " " .. vim.fn.fnameescape(room .. "/" .. name))
  vim.bo.fileformat = ends
  start()
  wait("initialize", function() return vim.lsp.buf_get_clients(0)[id] end)
  wait("the text", function() return published[vim.uri_from_bufnr(0)] end)
end

local function main()
  vim.cmd("set hidden noswapfile undolevels=100 nofixendofline")
  math.randomseed(tonumber(vim.env.SEED))
  open("a.rs")
  local begun = vim.api.nvim_buf_get_lines(0, 0, -1, true)
  edit_often(200, edit)
  vim.api.nvim_buf_set_lines(0, 0, -1, true, begun)
  edit_often(100, add)
  local running = answers()
  write("text", text())
  write("b.rs", text())
  open("b.rs")
  local copy = answers()
  write("said", vim.deep_equal(running, copy) and "same" or vim.inspect({ running, copy }))
  vim.lsp.stop_client(vim.lsp.get_active_clients())
  wait("the end", function() return #vim.lsp.get_active_clients() == 0 end)
end

local is_well, why = pcall(main)
if not is_well then
  io.stderr:write(tostring(why) .. "\n")
end
vim.cmd(is_well and "qall!" or "cquit!")
