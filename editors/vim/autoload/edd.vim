" What the file types of descriptions, tests and scripts have in common.

" The program, where g:edd_program does not name another one.
function! edd#Program() abort
  return get(g:, "edd_program", "edd")
endfunction

" Lays the text out as `edd fmt` does. A text that it refuses is indented.
function! edd#Format() abort
  let quiet = has("win32") ? " 2>NUL" : " 2>/dev/null"
  let made = systemlist(shellescape(edd#Program()) . " fmt -" . quiet, getline(1, "$") + [""])
  if v:shell_error
    normal! gg=G
    echomsg "edd fmt refuses the text; edd check says why"
    return
  endif
  if made ==# getline(1, "$")
    return
  endif
  let view = winsaveview()
  call setline(1, made)
  if line("$") > len(made)
    silent execute len(made) + 1 . ",$delete _"
  endif
  call winrestview(view)
endfunction

" Starts the language server for the buffer, where the editor has a client for it.
function! edd#Start() abort
  if !has("nvim") || !executable(edd#Program())
    return
  endif
  let git = finddir(".git", expand("%:p:h") . ";")
  call v:lua.edd_start(empty(git) ? expand("%:p:h") : fnamemodify(git, ":p:h:h"))
endfunction

if has("nvim")
lua << EOF_OF_LUA
  local function program()
    return vim.fn["edd#Program"]()
  end

  -- What may be clicked above a line runs the program in a terminal, with the simulated device that lies beside a description.
  local function run(words)
    local device = words[2]:gsub("%.device%.edd$", ".edd"):gsub("%.edd$", ".device.edd")
    if words[1] ~= "test" and device ~= words[2] and vim.fn.filereadable(device) == 1 then
      vim.list_extend(words, { "--device", device })
    end
    vim.cmd("botright new")
    vim.fn.termopen(vim.list_extend({ program() }, words))
  end
  vim.lsp.commands["edd.runMethod"] = function(command)
    run({ "try", vim.uri_to_fname(command.arguments[1]), command.arguments[2] })
  end
  vim.lsp.commands["edd.runTest"] = function(command)
    run({ "test", vim.uri_to_fname(command.arguments[1]), "--filter", command.arguments[2] })
  end
  vim.lsp.commands["edd.openInstrument"] = function(command)
    run({ "open", vim.uri_to_fname(command.arguments[1]) })
  end

  -- The keys that Neovim has from 0.11 on, in each version, where nothing else is on them.
  local keys = {
    K = "vim.lsp.buf.hover()",
    gd = "vim.lsp.buf.definition()",
    grn = "vim.lsp.buf.rename()",
    gra = "vim.lsp.buf.code_action()",
    grr = "vim.lsp.buf.references()",
    gO = "vim.lsp.buf.document_symbol()",
    grx = "vim.lsp.codelens.run()",
  }
  local function attached(_, buffer)
    vim.bo[buffer].omnifunc = "v:lua.vim.lsp.omnifunc"
    vim.bo[buffer].tagfunc = "v:lua.vim.lsp.tagfunc"
    for key, call in pairs(keys) do
      if vim.fn.maparg(key, "n") == "" then
        local options = { noremap = true, silent = true }
        vim.api.nvim_buf_set_keymap(buffer, "n", key, "<Cmd>lua " .. call .. "<CR>", options)
      end
    end
  end

  -- One server for all files of a folder of git, or of the folder that a file is in.
  local started = {}
  function _G.edd_start(root)
    local server = { name = "edd", cmd = { program(), "lsp" }, root_dir = root, on_attach = attached }
    if vim.lsp.start then
      vim.lsp.start(server)
      return
    end
    local client = started[root]
    if not client or vim.lsp.client_is_stopped(client) then
      started[root] = vim.lsp.start_client(server)
    end
    vim.lsp.buf_attach_client(0, started[root])
  end
EOF_OF_LUA
endif
