# prefix: a text in front of the body.
#
# As nginx's add_before_body, for a text that is part of the module. It goes with the first brigade of a request, also an empty one. n7
# says whether it went.
module 1
brigade b0 req
open
  ret ok
init
  bcreate b0
  set n7 0
  ret ok
main
  jsent gone
  jeq n7 1 loop
  set n7 1
  heap c1 "-- begin --\n"
  tail b0 c1
:loop
  first c0 in
  jend c0 out
  unlink c0
  jkind c0 eos last
  tail b0 c0
  jump loop
:last
  tail b0 c0
:out
  pass b0 bad
  bclean b0
  ret ok
:gone
  bclean in
  ret ok
:bad
  bclean b0
  ret fail
end
