# flush_each: a FLUSH behind each brigade, so that the client gets at once what has come.
#
# As flushpackets=on of mod_proxy. Behind an EOS stands none.
module 1
brigade b0 req
open
  ret ok
init
  bcreate b0
  ret ok
main
  jsent gone
:loop
  first c0 in
  jend c0 end
  unlink c0
  jkind c0 eos last
  tail b0 c0
  jump loop
:last
  tail b0 c0
  jump out
:end
  flush c1
  tail b0 c1
:out
  pass b0 bad
  bclean b0
  ret ok
:gone
  bclean in
  ret ok
:bad
  bclean b0
  ret fail
end
