# footer: a line at the end of a response that has a body.
#
# As the footer filters of httpd and nginx; unlike suffix it leaves an empty response empty. n7 says whether a byte came.
module 1
brigade b0 req
open
  ret ok
init
  bcreate b0
  set n7 0
  ret ok
main
  jsent gone
:loop
  first c0 in
  jend c0 out
  unlink c0
  jkind c0 eos last
  jkind c0 flush keep
  len n0 c0
  jeq n0 0 keep
  set n7 1
:keep
  tail b0 c0
  jump loop
:last
  jeq n7 0 send
  immortal c1 "<!-- served by httpd -->\n"
  tail b0 c1
:send
  tail b0 c0
:out
  pass b0 bad
  bclean b0
  ret ok
:gone
  bclean in
  ret ok
:bad
  bclean b0
  ret fail
end
