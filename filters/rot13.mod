# rot13: each letter is turned by 13 places of the alphabet.
#
# Played twice, it gives the text back. ASCII letters alone; it changes no length.
module 1
brigade b0 req
open
  ret ok
init
  bcreate b0
  ret ok
main
  jsent gone
:loop
  first c0 in
  jend c0 out
  jkind c0 data work
  unlink c0
  jkind c0 eos last
  tail b0 c0
  jump loop
:work
  # of each bucket so much that what comes of it fits into the buffer
  split c0 8000 whole
:whole
  read c0 bad
  set n0 0
:byte
  get n1 n0 done
  add n0 1
  jlt n1 65 put
  jlt n1 78 up
  jlt n1 91 down
  jlt n1 97 put
  jlt n1 110 up
  jlt n1 123 down
  jump put
:up
  add n1 13
  jump put
:down
  sub n1 13
:put
  put n1 bad
  jump byte
:done
  # the bytes in the buffer take the bucket's place
  frombuf c1
  tail b0 c1
  clearbuf
  bdelete c0
  jump loop
:last
  tail b0 c0
:out
  pass b0 bad
  bclean b0
  ret ok
:gone
  bclean in
  ret ok
:bad
  bclean b0
  ret fail
end
