# buffer: the body is gathered in buckets of its own, and goes on at the EOS.
#
# As mod_buffer. Unlike hold it copies: what it was given is free at once, files are read when they come, and each FLUSH is dropped.
module 1
brigade b0 req
open
  ret ok
init
  bcreate b0
  ret ok
main
  jsent gone
:loop
  first c0 in
  jend c0 end
  jkind c0 data work
  unlink c0
  jkind c0 eos last
  bdelete c0
  jump loop
:work
  read c0 bad
  set n0 0
:byte
  get n1 n0 done
:put
  put n1 full
  add n0 1
  jump byte
:full
  frombuf c1
  tail b0 c1
  clearbuf
  jump put
:done
  bdelete c0
  jump loop
:end
  frombuf c1
  tail b0 c1
  clearbuf
  ret ok
:last
  frombuf c1
  tail b0 c1
  tail b0 c0
  pass b0 bad
  bclean b0
  ret ok
:gone
  bclean in
  ret ok
:bad
  bclean b0
  ret fail
end
