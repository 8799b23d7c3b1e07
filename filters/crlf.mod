# crlf: lines end with CR LF.
#
# An LF without a CR before it gets one; CR LF stays, also where the two bytes come in two brigades. n3 says whether the last
# byte of what came before is a CR. A text gets at most twice as long.
module 1
brigade b0 req
open
  ret ok
init
  bcreate b0
  set n3 0
  ret ok
main
  jsent gone
:loop
  first c0 in
  jend c0 out
  jkind c0 data work
  unlink c0
  jkind c0 eos last
  tail b0 c0
  jump loop
:work
  # of each bucket so much that what comes of it fits into the buffer
  split c0 4000 whole
:whole
  read c0 bad
  set n0 0
:byte
  get n1 n0 done
  add n0 1
  jeq n1 10 ends
  jeq n1 13 return
  set n3 0
  jump put
:return
  set n3 1
  jump put
:ends
  jeq n3 1 ended
  put 13 bad
:ended
  set n3 0
:put
  put n1 bad
  jump byte
:done
  # the bytes in the buffer take the bucket's place
  frombuf c1
  tail b0 c1
  clearbuf
  bdelete c0
  jump loop
:last
  tail b0 c0
:out
  pass b0 bad
  bclean b0
  ret ok
:gone
  bclean in
  ret ok
:bad
  bclean b0
  ret fail
end
