# hold: the whole response is held back until its EOS.
#
# Each bucket is set aside into the request's pool and kept as it is, without a copy of a file's bytes. Filters that have to see the end
# before they may pass on the beginning begin like this.
module 1
brigade b0 req
open
  ret ok
init
  bcreate b0
  ret ok
main
  jsent gone
:loop
  first c0 in
  jend c0 kept
  unlink c0
  jkind c0 eos last
  aside c0 req
  tail b0 c0
  jump loop
:last
  tail b0 c0
  pass b0 bad
  bclean b0
:kept
  ret ok
:gone
  bclean in
  ret ok
:bad
  bclean b0
  ret fail
end
