# cache: the body of the first response of a connection is the body of all that follow.
#
# As a cache in memory with one entry. Copies of what comes are set aside into the connection's pool and kept in b1; once the EOS has come,
# later bodies are dropped, and copies of what is kept go on in their place. n7 says whether the entry is whole. A
# first response that ended early leaves nothing.
module 1
brigade b0 req
brigade b1 conn
open
  bcreate b1
  set n7 0
  ret ok
init
  bcreate b0
  jeq n7 1 ready
  bclean b1
:ready
  ret ok
main
  jsent gone
:loop
  first c0 in
  jend c0 out
  jkind c0 data work
  unlink c0
  jkind c0 eos last
  tail b0 c0
  jump loop
:work
  jeq n7 1 drop
  copy c1 c0
  aside c1 conn
  tail b1 c1
  unlink c0
  tail b0 c0
  jump loop
:drop
  bdelete c0
  jump loop
:last
  jeq n7 0 whole
  # in the place of this body, copies of the one that is kept
  first c1 b1
:next
  jend c1 send
  copy c2 c1
  tail b0 c2
  next c1 c1
  jump next
:whole
  set n7 1
:send
  tail b0 c0
:out
  pass b0 bad
  bclean b0
  ret ok
:gone
  bclean in
  ret ok
:bad
  bclean b0
  ret fail
end
