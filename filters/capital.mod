# capital: the first letter of each word becomes a capital.
#
# A word ends at a byte below 33, such as a space or a line feed. Signs in front of it are skipped; a digit, a capital or a byte above 127
# begins it and stays as it is. ASCII letters alone; it changes no length. A word may be cut into buckets and brigades.
module 1
brigade b0 req
open
  ret ok
init
  bcreate b0
  # n7: 1 within a word
  set n7 0
  ret ok
main
  jsent gone
:loop
  first c0 in
  jend c0 out
  jkind c0 data work
  unlink c0
  jkind c0 eos last
  tail b0 c0
  jump loop
:work
  split c0 8000 whole
:whole
  read c0 bad
  set n0 0
:byte
  get n1 n0 done
  add n0 1
  jlt n1 33 blank
  jeq n7 1 emit
  # in front of a word: a letter, a digit or a byte of UTF-8 begins it
  jlt n1 48 emit
  jlt n1 58 begins
  jlt n1 65 emit
  jlt n1 91 begins
  jlt n1 97 emit
  jlt n1 123 small
  jlt n1 128 emit
:begins
  set n7 1
:emit
  put n1 bad
  jump byte
:small
  sub n1 32
  jump begins
:blank
  set n7 0
  put n1 bad
  jump byte
:done
  frombuf c1
  tail b0 c1
  clearbuf
  bdelete c0
  jump loop
:last
  tail b0 c0
:out
  pass b0 bad
  bclean b0
  ret ok
:gone
  bclean in
  ret ok
:bad
  bclean b0
  ret fail
end
