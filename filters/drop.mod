# drop: the body is dropped, and the EOS goes on.
#
# As what httpd does with the body of a response to HEAD.
module 1
brigade b0 req
open
  ret ok
init
  bcreate b0
  ret ok
main
  jsent gone
:loop
  first c0 in
  jend c0 out
  unlink c0
  jkind c0 eos last
  bdelete c0
  jump loop
:last
  tail b0 c0
:out
  pass b0 bad
  bclean b0
  ret ok
:gone
  bclean in
  ret ok
:bad
  bclean b0
  ret fail
end
