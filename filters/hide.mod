# hide: e-mail addresses are hidden. A run of bytes above 32 with an @ in it becomes "[address]".
#
# Signs and tags beside the address belong to the run, and go with it. An @ behind the first 1,000 bytes of a run is not looked for. A run
# that has not ended is held over a FLUSH and from brigade to brigade, at most 1,000 bytes of it; one that an EOS does not follow is dropped.
module 1
brigade b0 req
# b1: the run that is not at its end yet
brigade b1 req
open
  ret ok
init
  bcreate b0
  bcreate b1
  # n6: bytes of the run so far; n7: 1 in a run that is hidden
  set n6 0
  set n7 0
  ret ok
main
  jsent gone
:loop
  first c0 in
  jend c0 out
  jkind c0 data work
  unlink c0
  jkind c0 eos last
  tail b0 c0
  jump loop
:work
  split c0 8000 whole
:whole
  read c0 bad
  set n0 0
  # n2: bytes in the buffer; n5: those before the run
  set n2 0
  set n5 0
:byte
  get n1 n0 done
  add n0 1
  jlt n1 33 blank
  jeq n7 1 byte
  jeq n1 64 at
:keep
  put n1 bad
  add n2 1
  add n6 1
  jlt n6 1000 byte
  # too long for an address: it is let go
  bconcat b0 b1
  set n5 n2
  jump byte
:blank
  bconcat b0 b1
  put n1 bad
  add n2 1
  set n5 n2
  set n6 0
  set n7 0
  jump byte
:at
  jlt n6 1000 hide
  jump keep
:hide
  frombuf c1
  tail b1 c1
  split c1 n5 before
:before
  unlink c1
  tail b0 c1
  bclean b1
  clearbuf
  set n2 0
  set n5 0
  set n7 1
  immortal c1 "[address]"
  tail b0 c1
  jump byte
:done
  jeq n2 0 empty
  frombuf c1
  tail b1 c1
  split c1 n5 rest
:rest
  unlink c1
  tail b0 c1
  clearbuf
:empty
  bdelete c0
  jump loop
:last
  bconcat b0 b1
  tail b0 c0
:out
  pass b0 bad
  bclean b0
  ret ok
:gone
  bclean in
  ret ok
:bad
  bclean b0
  bclean b1
  ret fail
end
