# tee: the body goes on as it comes, and once more behind it.
#
# As nginx's mirror or mod_dumpio, with the client in the place of the other receiver, so that both can be seen. The copies of
# buckets share no state with what they are copies of; those of files are no copies of bytes. They are kept in b1 until the EOS.
module 1
brigade b0 req
brigade b1 req
open
  ret ok
init
  bcreate b0
  bcreate b1
  ret ok
main
  jsent gone
:loop
  first c0 in
  jend c0 out
  jkind c0 data work
  unlink c0
  jkind c0 eos last
  tail b0 c0
  jump loop
:work
  copy c1 c0
  aside c1 req
  tail b1 c1
  unlink c0
  tail b0 c0
  jump loop
:last
  bconcat b0 b1
  tail b0 c0
:out
  pass b0 bad
  bclean b0
  ret ok
:gone
  bclean in
  ret ok
:bad
  bclean b0
  bclean b1
  ret fail
end
