# arrow: "->" becomes "=>".
#
# A pattern of two bytes, as mod_substitute and nginx's sub_filter replace it, also where its bytes come in two buckets or two
# brigades: a "-" is held back until the next byte tells what it is. n3 says whether one is held back.
module 1
brigade b0 req
open
  ret ok
init
  bcreate b0
  set n3 0
  ret ok
main
  jsent gone
:loop
  first c0 in
  jend c0 out
  jkind c0 data work
  unlink c0
  jkind c0 eos last
  tail b0 c0
  jump loop
:work
  # of each bucket so much that what comes of it fits into the buffer
  split c0 4000 whole
:whole
  read c0 bad
  set n0 0
:byte
  get n1 n0 done
  add n0 1
  jeq n3 0 fresh
  jeq n1 62 found
  # the held "-" was no arrow; what came may be the start of one
  put 45 bad
  jeq n1 45 byte
  set n3 0
  jump put
:found
  put 61 bad
  set n3 0
  jump put
:fresh
  jeq n1 45 hold
  jump put
:hold
  set n3 1
  jump byte
:put
  put n1 bad
  jump byte
:done
  # the bytes in the buffer take the bucket's place
  frombuf c1
  tail b0 c1
  clearbuf
  bdelete c0
  jump loop
:last
  # an EOS behind a "-" that is held back
  jeq n3 0 send
  heap c1 "-"
  tail b0 c1
  set n3 0
:send
  tail b0 c0
:out
  pass b0 bad
  bclean b0
  ret ok
:gone
  bclean in
  ret ok
:bad
  bclean b0
  ret fail
end
