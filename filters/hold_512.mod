# hold_512: the first 512 bytes are held back, so that they go on together.
#
# As nginx's postpone_output. Once they are there, or the EOS is, all goes on as it comes. n0 says how many bytes came.
module 1
brigade b0 req
open
  ret ok
init
  bcreate b0
  set n0 0
  ret ok
main
  jsent gone
:loop
  first c0 in
  jend c0 out
  unlink c0
  jkind c0 eos last
  jkind c0 flush keep
  len n1 c0
  add n0 n1
:keep
  aside c0 req
  tail b0 c0
  jump loop
:last
  tail b0 c0
  jump send
:out
  jlt n0 512 kept
:send
  pass b0 bad
  bclean b0
:kept
  ret ok
:gone
  bclean in
  ret ok
:bad
  bclean b0
  ret fail
end
