# abort: the response fails where a byte 0 comes.
#
# As a rule of mod_security on the body of a response, for one byte. What was passed on before stays; of the brigade in which the byte
# stands nothing is passed on, and the call fails; so does each later call of the request. n7 says that the byte came.
module 1
brigade b0 req
open
  ret ok
init
  bcreate b0
  set n7 0
  ret ok
main
  jsent gone
  jeq n7 1 bad
:loop
  first c0 in
  jend c0 out
  jkind c0 data work
  unlink c0
  jkind c0 eos last
  tail b0 c0
  jump loop
:work
  # of each bucket so much that what comes of it fits into the buffer
  split c0 8000 whole
:whole
  read c0 bad
  set n0 0
:byte
  get n1 n0 done
  add n0 1
  jeq n1 0 found
:put
  put n1 bad
  jump byte
:found
  set n7 1
  jump bad
:done
  # the bytes in the buffer take the bucket's place
  frombuf c1
  tail b0 c1
  clearbuf
  bdelete c0
  jump loop
:last
  tail b0 c0
:out
  pass b0 bad
  bclean b0
  ret ok
:gone
  bclean in
  ret ok
:bad
  bclean b0
  ret fail
end
