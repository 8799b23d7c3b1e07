# banner: a text in front of the first response of a connection.
#
# n7 says whether it went; it is set when the connection is opened, and lasts as long.
module 1
brigade b0 req
open
  set n7 0
  ret ok
init
  bcreate b0
  ret ok
main
  jsent gone
  jeq n7 1 loop
  set n7 1
  heap c1 "welcome\n"
  tail b0 c1
:loop
  first c0 in
  jend c0 out
  unlink c0
  jkind c0 eos last
  tail b0 c0
  jump loop
:last
  tail b0 c0
:out
  pass b0 bad
  bclean b0
  ret ok
:gone
  bclean in
  ret ok
:bad
  bclean b0
  ret fail
end
