vim9script
# Prints for each case of cases.json, as one line of JSON, the replacements of the plugin for Vim. It works in examples/compare.
set encoding=utf-8
import '../vim/autoload/rls/compare.vim'
# No string of Vim has the character 0: in the lists 0x110000 stands for it, and in the JSON here U+FDD0, which no case has.
var lines: list<string> = []
def Characters(text: string): list<number>
  return str2list(text)->map((_, x) => x == 0xFDD0 ? 0x110000 : x)
enddef
for case in json_decode(substitute(join(readfile('cases.json'), ''), '\\u0000', nr2char(0xFDD0), 'g'))
  const old: list<number> = Characters(case.old)
  const new: list<number> = Characters(case.new)
  var found: list<any> = []
  for [p, m, q, n] in compare.Compared(old, new, 60.0)
    add(found, [p, m - p, n > q ? list2str(new[q : n - 1]->map((_, x) => x == 0x110000 ? 0xFDD0 : x)) : ''])
  endfor
  add(lines, substitute(json_encode(found), nr2char(0xFDD0), '\\u0000', 'g'))
endfor
writefile(lines, '/dev/stdout')
qa!
