# once: a text before the first byte of a body; then it leaves the chain.
#
# As prefix, but a body without bytes stays one, and what comes behind the first byte goes past it: it costs what it costs without
# this filter. FLUSH and empty buckets that come before the first byte are passed on.
module 1
brigade b0 req
open
  ret ok
init
  bcreate b0
  ret ok
main
  jsent gone
:loop
  first c0 in
  jend c0 out
  jkind c0 data look
  unlink c0
  jkind c0 eos last
  tail b0 c0
  jump loop
:look
  len n0 c0
  jlt n0 1 empty
  # the first byte: the text goes before it, and the filter is done for this request
  heap c1 "-- begin --\n"
  tail b0 c1
  bconcat b0 in
  leave
  jump out
:empty
  unlink c0
  tail b0 c0
  jump loop
:last
  tail b0 c0
:out
  pass b0 bad
  bclean b0
  ret ok
:gone
  bclean in
  ret ok
:bad
  bclean b0
  ret fail
end
