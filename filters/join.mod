# join: small buckets of one brigade are joined to large ones.
#
# As the coalesce filter of mod_ssl: fewer and larger writes behind it. Bytes are copied into buckets of up to 8,000; a FLUSH or the EOS ends
# the bucket that is begun, and so does the end of the brigade.
module 1
brigade b0 req
open
  ret ok
init
  bcreate b0
  ret ok
main
  jsent gone
:loop
  first c0 in
  jend c0 end
  jkind c0 data work
  frombuf c1
  tail b0 c1
  clearbuf
  unlink c0
  jkind c0 eos last
  tail b0 c0
  jump loop
:work
  read c0 bad
  set n0 0
:byte
  get n1 n0 done
:put
  put n1 full
  add n0 1
  jump byte
:full
  frombuf c1
  tail b0 c1
  clearbuf
  jump put
:done
  bdelete c0
  jump loop
:end
  frombuf c1
  tail b0 c1
  clearbuf
  jump out
:last
  tail b0 c0
:out
  pass b0 bad
  bclean b0
  ret ok
:gone
  bclean in
  ret ok
:bad
  bclean b0
  ret fail
end
