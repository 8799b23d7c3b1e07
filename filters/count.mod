# count: a line behind the body says how many lines and bytes it had.
#
# The figures of mod_logio, as a part of the body. Both stop at 4,294,967,295. n4 counts LFs, n5 bytes. A number is written from its
# first digit on: n7 is the power of ten at hand, n2 the digit, and n3 says whether a digit was written.
module 1
brigade b0 req
open
  ret ok
init
  bcreate b0
  set n4 0
  set n5 0
  ret ok
main
  jsent gone
:loop
  first c0 in
  jend c0 out
  jkind c0 data work
  unlink c0
  jkind c0 eos last
  tail b0 c0
  jump loop
:work
  # 8,000 bytes at most are read at once
  split c0 8000 whole
:whole
  read c0 bad
  len n1 c0
  add n5 n1
  set n0 0
:byte
  get n1 n0 done
  add n0 1
  jeq n1 10 line
  jump byte
:line
  add n4 1
  jump byte
:done
  unlink c0
  tail b0 c0
  jump loop
:last
  # first the lines are written, then the bytes: n6 says which
  set n6 0
  set n1 n4
:number
  set n7 1000000000
  set n3 0
:digit
  set n2 48
:count
  jlt n1 n7 counted
  sub n1 n7
  add n2 1
  jump count
:counted
  jeq n7 1 write
  jeq n3 1 write
  jeq n2 48 smaller
:write
  put n2 bad
  set n3 1
:smaller
  jeq n7 1 written
  jeq n7 1000000000 p8
  jeq n7 100000000 p7
  jeq n7 10000000 p6
  jeq n7 1000000 p5
  jeq n7 100000 p4
  jeq n7 10000 p3
  jeq n7 1000 p2
  jeq n7 100 p1
  jeq n7 10 p0
:p8
  set n7 100000000
  jump digit
:p7
  set n7 10000000
  jump digit
:p6
  set n7 1000000
  jump digit
:p5
  set n7 100000
  jump digit
:p4
  set n7 10000
  jump digit
:p3
  set n7 1000
  jump digit
:p2
  set n7 100
  jump digit
:p1
  set n7 10
  jump digit
:p0
  set n7 1
  jump digit
:written
  jeq n6 1 bytes
  frombuf c1
  tail b0 c1
  clearbuf
  heap c1 " lines, "
  tail b0 c1
  set n6 1
  set n1 n5
  jump number
:bytes
  frombuf c1
  tail b0 c1
  clearbuf
  heap c1 " bytes\n"
  tail b0 c1
  tail b0 c0
:out
  pass b0 bad
  bclean b0
  ret ok
:gone
  bclean in
  ret ok
:bad
  bclean b0
  ret fail
end
