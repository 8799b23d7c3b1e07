# parts: the body goes on in parts of 1,024 bytes, with a FLUSH behind each that is full.
#
# As nginx's output_buffers of a fixed size; the last part is what is left. A part that is begun goes on at the end of
# the call, and the next call goes on with it. Buckets are cut where a part ends, files without a read. n0 says how many bytes the part that is begun has.
module 1
brigade b0 req
open
  ret ok
init
  bcreate b0
  set n0 0
  ret ok
main
  jsent gone
:loop
  first c0 in
  jend c0 out
  jkind c0 data work
  unlink c0
  jkind c0 eos last
  tail b0 c0
  jump loop
:work
  set n1 1024
  sub n1 n0
  len n2 c0
  jlt n2 n1 small
  # the part is full with the first n1 bytes of this bucket
  split c0 n1 bad
  unlink c0
  tail b0 c0
  flush c1
  tail b0 c1
  pass b0 bad
  bclean b0
  set n0 0
  jump loop
:small
  add n0 n2
  unlink c0
  tail b0 c0
  jump loop
:last
  tail b0 c0
:out
  pass b0 bad
  bclean b0
  ret ok
:gone
  bclean in
  ret ok
:bad
  bclean b0
  ret fail
end
