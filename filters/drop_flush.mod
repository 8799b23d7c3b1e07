# drop_flush: takes out each FLUSH, so that filters behind it may gather.
#
# As a server that buffers what a backend sends (nginx's proxy_buffering), whatever the backend asks for.
module 1
brigade b0 req
open
  ret ok
init
  bcreate b0
  ret ok
main
  jsent gone
:loop
  first c0 in
  jend c0 out
  unlink c0
  jkind c0 eos last
  jkind c0 flush drop
  tail b0 c0
  jump loop
:drop
  bdelete c0
  jump loop
:last
  tail b0 c0
:out
  pass b0 bad
  bclean b0
  ret ok
:gone
  bclean in
  ret ok
:bad
  bclean b0
  ret fail
end
