# label_text: each line of a body that is text begins with `> `; any other body goes as it came, past this filter.
#
# It looks at the first eight bytes. A body is no text where one of these is a control character other than white space (9 to 13):
# images, archives and programs have one there. Then it passes all on and leaves the chain. A shorter body is judged by the bytes that it
# has. Until eight bytes have come, or the EOS, all is held, a FLUSH too.
module 1
brigade b0 req
brigade b1 req
open
  ret ok
init
  bcreate b0
  # b1: what is held. n4: bytes looked at. n6: 1 where the body is text. n7: 1 at the begin of a line
  bcreate b1
  set n4 0
  set n6 0
  set n7 1
  ret ok
main
  jsent gone
  jeq n6 1 join
:look
  first c0 in
  jend c0 wait
  jkind c0 data bytes
  jkind c0 eos text
  jump hold
:bytes
  read c0 bad
  set n0 0
:byte
  get n1 n0 hold
  add n0 1
  jlt n1 9 other
  jlt n1 14 fine
  jlt n1 32 other
  jeq n1 127 other
:fine
  add n4 1
  jlt n4 8 byte
  jump text
:hold
  # it stays for longer than this call
  unlink c0
  aside c0 req
  tail b1 c0
  jump look
:wait
  ret ok
:other
  bconcat b1 in
  leave
  pass b1 bad
  bclean b1
  ret ok
:text
  set n6 1
:join
  bconcat b1 in
:loop
  first c0 b1
  jend c0 out
  jkind c0 data work
  unlink c0
  jkind c0 eos last
  tail b0 c0
  jump loop
:work
  # a byte becomes three at most
  split c0 2600 whole
:whole
  read c0 bad
  set n0 0
:each
  get n1 n0 done
  add n0 1
  jeq n7 0 put
  put 62 bad
  put 32 bad
  set n7 0
:put
  put n1 bad
  jeq n1 10 line
  jump each
:line
  set n7 1
  jump each
:done
  frombuf c1
  tail b0 c1
  clearbuf
  bdelete c0
  jump loop
:last
  tail b0 c0
:out
  # what is behind the EOS stays
  bclean b1
  pass b0 bad
  bclean b0
  ret ok
:gone
  bclean in
  ret ok
:bad
  bclean b0
  bclean b1
  ret fail
end
