# rate: at most 4,096 bytes of a body go on in one pass, and one pass in a call, up to the EOS.
#
# As mod_ratelimit and nginx's limit_rate, where the host calls at the pace that it wants: each call passes one part on, with a FLUSH
# behind it, and keeps the rest in b1. The call with the EOS passes all that is left, part by part.
module 1
brigade b0 req
brigade b1 req
open
  ret ok
init
  bcreate b0
  bcreate b1
  ret ok
main
  jsent gone
  set n6 0
:loop
  first c0 in
  jend c0 part
  unlink c0
  jkind c0 eos last
  aside c0 req
  tail b1 c0
  jump loop
:last
  # the EOS is made anew behind the last part
  bdelete c0
  set n6 1
:part
  # n0: how many bytes this part may still take
  set n0 4096
:more
  first c0 b1
  jend c0 empty
  jkind c0 flush take
  len n1 c0
  jlt n0 n1 over
  sub n0 n1
:take
  unlink c0
  tail b0 c0
  jump more
:over
  jeq n0 0 send
  split c0 n0 bad
  unlink c0
  tail b0 c0
:send
  flush c1
  tail b0 c1
  pass b0 bad
  bclean b0
  jeq n6 1 part
  ret ok
:empty
  jeq n6 0 out
  eos c1
  tail b0 c1
:out
  pass b0 bad
  bclean b0
  ret ok
:gone
  bclean in
  ret ok
:bad
  bclean b0
  bclean b1
  ret fail
end
