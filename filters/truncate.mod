# truncate: at most 1,000 bytes of a body.
#
# What comes behind them is dropped; a bucket is cut where they end. n0 says how many may still go.
module 1
brigade b0 req
open
  ret ok
init
  bcreate b0
  set n0 1000
  ret ok
main
  jsent gone
:loop
  first c0 in
  jend c0 out
  jkind c0 data work
  unlink c0
  jkind c0 eos last
  tail b0 c0
  jump loop
:work
  len n1 c0
  jlt n0 n1 over
  sub n0 n1
  unlink c0
  tail b0 c0
  jump loop
:over
  jeq n0 0 none
  split c0 n0 bad
  set n0 0
  unlink c0
  tail b0 c0
  jump loop
:none
  bdelete c0
  jump loop
:last
  tail b0 c0
:out
  pass b0 bad
  bclean b0
  ret ok
:gone
  bclean in
  ret ok
:bad
  bclean b0
  ret fail
end
