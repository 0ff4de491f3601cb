" The lines of a text, with an index of blocks of lines that knows how many characters they have, so that a place of the session, which counts
" characters, and one of Vim, which counts lines and bytes, are found without going through the whole text. Lines count from 1, as Vim's do.
let s:most = 256            " lines of a block

" An index of lines: for each block how many lines and how many characters it has, each line with its line feed.
function rls#lines#new(lines) abort
  let text = {'lines': a:lines, 'sizes': [], 'counts': []}
  call s:index(text, 0, 0, 0, len(a:lines))
  return text
endfunction

" How many characters lines have, each with its line feed.
function rls#lines#count(lines) abort
  return empty(a:lines) ? 0 : strchars(join(a:lines, "\n")) + 1
endfunction

" Puts blocks for so many lines from a line on, counted from 0, in place of some blocks.
function s:index(text, block, blocks, from, count) abort
  let [sizes, counts] = [[], []]
  for at in range(a:from, a:from + a:count - 1, s:most / 2)
    let size = min([s:most / 2, a:from + a:count - at])
    call add(sizes, size)
    call add(counts, rls#lines#count(a:text.lines[at : at + size - 1]))
  endfor
  if a:blocks > 0
    call remove(a:text.sizes, a:block, a:block + a:blocks - 1)
    call remove(a:text.counts, a:block, a:block + a:blocks - 1)
  endif
  call extend(a:text.sizes, sizes, a:block)
  call extend(a:text.counts, counts, a:block)
endfunction

" The block of a line, the line before its first one, and how many characters come before it.
function s:locate(text, line) abort
  let [block, before, characters, last] = [0, 0, 0, len(a:text.sizes) - 1]
  while block < last && a:line > before + a:text.sizes[block]
    let before += a:text.sizes[block]
    let characters += a:text.counts[block]
    let block += 1
  endwhile
  return [block, before, characters]
endfunction

" How many characters come before a line.
function rls#lines#place(text, line) abort
  let [_, before, characters] = s:locate(a:text, a:line)
  return characters + (a:line - 1 > before ? rls#lines#count(a:text.lines[before : a:line - 2]) : 0)
endfunction

" The line, and the byte in it counted from 0, of a place in characters.
function rls#lines#find(text, place) abort
  let [block, before, left, last] = [0, 0, a:place, len(a:text.sizes) - 1]
  while block < last && left >= a:text.counts[block]
    let left -= a:text.counts[block]
    let before += a:text.sizes[block]
    let block += 1
  endwhile
  for line in range(before, len(a:text.lines) - 1)
    let size = strchars(a:text.lines[line])
    if left <= size || line == len(a:text.lines) - 1
      return [line + 1, byteidxcomp(a:text.lines[line] . ' ', min([left, size]))]
    endif
    let left -= size + 1
  endfor
endfunction

" Puts other lines in place of those from a line on.
function rls#lines#splice(text, from, count, lines) abort
  let [first, before, _] = s:locate(a:text, a:from)
  let [last, after, _] = s:locate(a:text, max([a:from, a:from + a:count - 1]))
  let size = after + (empty(a:text.sizes) ? 0 : a:text.sizes[last]) - before
  if a:count == len(a:lines)
    if a:count > 0
      let a:text.lines[a:from - 1 : a:from + a:count - 2] = a:lines
    endif
  else
    if a:count > 0
      call remove(a:text.lines, a:from - 1, a:from + a:count - 2)
    endif
    call extend(a:text.lines, a:lines, a:from - 1)
  endif
  let blocks = empty(a:text.sizes) ? 0 : last - first + 1
  if blocks == 1 && size + len(a:lines) - a:count <= s:most && size + len(a:lines) - a:count > 0
    let a:text.sizes[first] = size + len(a:lines) - a:count
    let a:text.counts[first] = rls#lines#count(a:text.lines[before : before + a:text.sizes[first] - 1])
  else
    call s:index(a:text, first, blocks, before, size + len(a:lines) - a:count)
  endif
endfunction

" The characters of lines as numbers, with a line feed between two lines.
function rls#lines#characters(lines) abort
  let all = []
  for line in a:lines
    let characters = str2list(line)
    call extend(all, stridx(line, "\n") < 0 ? characters : map(characters, {_, c -> c == 10 ? 0 : c}))
    call add(all, 10)
  endfor
  return empty(all) ? [] : all[: -2]
endfunction

function s:utf8(c) abort
  if a:c < 0x80
    return [a:c]
  elseif a:c < 0x800
    return [0xc0 + a:c / 64, 0x80 + a:c % 64]
  elseif a:c < 0x10000
    return [0xe0 + a:c / 4096, 0x80 + a:c / 64 % 64, 0x80 + a:c % 64]
  endif
  return [0xf0 + a:c / 262144, 0x80 + a:c / 4096 % 64, 0x80 + a:c / 64 % 64, 0x80 + a:c % 64]
endfunction

" The lines of characters.
function rls#lines#of_characters(characters) abort
  let [lines, from] = [[], 0]
  while from <= len(a:characters)
    let feed = index(a:characters, 10, from)
    let end = feed < 0 ? len(a:characters) : feed
    call add(lines, end > from ? list2str(map(a:characters[from : end - 1], {_, c -> c == 0 ? 10 : c})) : '')
    let from = end + 1
  endwhile
  return lines
endfunction

" A text with another spelling of each of these characters. (`substitute` takes time with the square of what it finds.)
function s:spelled(text, character, spelling) abort
  return stridx(a:text, a:character) < 0 ? a:text : join(split(a:text, a:character, 1), a:spelling)
endfunction

" A request with these characters at its end: a string, or a blob if there is a NUL, which no string of Vim has.
function rls#lines#request(head, characters) abort
  if index(a:characters, 0) < 0
    return a:head . s:spelled(s:spelled(escape(list2str(a:characters), '\'), "\n", '\n'), "\r", '\r')
  endif
  let bytes = str2list(a:head)
  for c in a:characters
    call extend(bytes, c == 10 ? [92, 110] : c == 13 ? [92, 114] : c == 92 ? [92, 92] : s:utf8(c))
  endfor
  return list2blob(bytes)
endfunction

" How many members are equal at the front and at the end of two lists.
function rls#lines#common(old, new) abort
  let least = min([len(a:old), len(a:new)])
  let front = 0
  while front < least && a:old[front] ==# a:new[front]
    let front += 1
  endwhile
  let end = 0
  while end < least - front && a:old[-1 - end] ==# a:new[-1 - end]
    let end += 1
  endwhile
  return [front, end]
endfunction

function rls#lines#middle(list, front, end) abort
  let last = len(a:list) - a:end - 1
  return last < a:front ? [] : a:list[a:front : last]
endfunction
