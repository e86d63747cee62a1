set encoding=utf-8
cfile printed
let all = map(filter(getqflist(), {_, f -> f.valid}), {_, f -> [bufname(f.bufnr), f.lnum, f.col, f.text]})
call writefile([json_encode(all)], 'read')
quit!
