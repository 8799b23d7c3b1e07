# hexdump: each byte as two hex digits and a space, with a line feed behind each 16 bytes and behind the last line.
#
# A body becomes more than three times as long. The place on the line is kept from bucket to bucket and from brigade to brigade.
module 1
brigade b0 req
open
  ret ok
init
  bcreate b0
  # n7: bytes on the line
  set n7 0
  ret ok
main
  jsent gone
:loop
  first c0 in
  jend c0 out
  jkind c0 data work
  unlink c0
  jkind c0 eos last
  tail b0 c0
  jump loop
:work
  # a byte becomes three, and one more behind each 16
  split c0 2600 whole
:whole
  read c0 bad
  set n0 0
:byte
  get n1 n0 done
  add n0 1
  set n2 48
  jlt n1 128 a
  sub n1 128
  add n2 8
:a
  jlt n1 64 b
  sub n1 64
  add n2 4
:b
  jlt n1 32 c
  sub n1 32
  add n2 2
:c
  jlt n1 16 d
  sub n1 16
  add n2 1
:d
  jlt n2 58 high
  add n2 39
:high
  put n2 bad
  add n1 48
  jlt n1 58 low
  add n1 39
:low
  put n1 bad
  put 32 bad
  add n7 1
  jlt n7 16 byte
  set n7 0
  put 10 bad
  jump byte
:done
  frombuf c1
  tail b0 c1
  clearbuf
  bdelete c0
  jump loop
:last
  # the last line ends with a line feed too
  jeq n7 0 whole16
  heap c1 "\n"
  tail b0 c1
:whole16
  tail b0 c0
:out
  pass b0 bad
  bclean b0
  ret ok
:gone
  bclean in
  ret ok
:bad
  bclean b0
  ret fail
end
