# strip: comments of HTML, from "<!--" to "-->", are taken out.
#
# As nginx's strip modules and mod_pagespeed's remove_comments do it. A comment may be cut anywhere by buckets and brigades; one that is
# open at the EOS is dropped to its end. It does not know scripts and quoted text: what looks like a comment there is one, too. A comment ends at
# the first "-->" behind its four bytes, so "<!-->" begins one and does not end it.
#
# n3 says how much of a mark was seen: 0 nothing, 1 "<", 2 "<!", 3 "<!-"; 4 in a comment, 5 "-" in it, 6 "--" in it.
module 1
brigade b0 req
open
  ret ok
init
  bcreate b0
  set n3 0
  ret ok
main
  jsent gone
:loop
  first c0 in
  jend c0 out
  jkind c0 data work
  unlink c0
  jkind c0 eos last
  tail b0 c0
  jump loop
:work
  # of each bucket so much that what comes of it fits into the buffer
  split c0 2000 whole
:whole
  read c0 bad
  set n0 0
:byte
  get n1 n0 done
  add n0 1
  jlt n3 1 text
  jlt n3 4 opening
  # in a comment
  jeq n1 45 dash
  jeq n3 6 maybe
  set n3 4
  jump byte
:maybe
  jeq n1 62 closed
  set n3 4
  jump byte
:closed
  set n3 0
  jump byte
:dash
  jeq n3 6 byte
  add n3 1
  jump byte
:text
  jeq n1 60 less
  jump put
:less
  set n3 1
  jump byte
:opening
  jeq n3 1 bang
  jeq n1 45 more
  jump none
:bang
  jeq n1 33 more
  jump none
:more
  add n3 1
  jump byte
:none
  # it was no mark: what was held back goes out
  put 60 bad
  jeq n3 1 again
  put 33 bad
  jeq n3 2 again
  put 45 bad
:again
  set n3 0
  jump text
:put
  put n1 bad
  jump byte
:done
  # the bytes in the buffer take the bucket's place
  frombuf c1
  tail b0 c1
  clearbuf
  bdelete c0
  jump loop
:last
  # what is held back at the EOS is no mark
  jeq n3 0 send
  jlt n3 4 held
  jump send
:held
  heap c1 "<"
  tail b0 c1
  jeq n3 1 send
  heap c1 "!"
  tail b0 c1
  jeq n3 2 send
  heap c1 "-"
  tail b0 c1
:send
  tail b0 c0
:out
  pass b0 bad
  bclean b0
  ret ok
:gone
  bclean in
  ret ok
:bad
  bclean b0
  ret fail
end
