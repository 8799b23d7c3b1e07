# suffix: a text behind the body.
#
# As nginx's add_after_body, for a text that is part of the module. It stands before the EOS, also of an empty body.
module 1
brigade b0 req
open
  ret ok
init
  bcreate b0
  ret ok
main
  jsent gone
:loop
  first c0 in
  jend c0 out
  unlink c0
  jkind c0 eos last
  tail b0 c0
  jump loop
:last
  heap c1 "-- end --\n"
  tail b0 c1
  tail b0 c0
:out
  pass b0 bad
  bclean b0
  ret ok
:gone
  bclean in
  ret ok
:bad
  bclean b0
  ret fail
end
