"""Filters that meet in a chain: each does to its brigades, pools and buckets what the filters before and behind it may feel."""

# Sets what comes aside into a pool of its own, passes it, and clears that pool.
CLEARS_BEHIND = """
module 1
pool p0 conn
open
pcreate p0
ret ok
init
ret ok
main
jsent drop
first c0 in
:walk
jend c0 send
aside c0 p0
next c0 c0
jump walk
:send
pass in bad
pclear p0
ret ok
:bad
pclear p0
ret fail
:drop
ret ok
end
"""

# Keeps what comes, in a brigade on the connection, until there is an empty brigade, and then passes all.
KEEPS = """
module 1
brigade b0 conn
open
bcreate b0
ret ok
init
bclean b0
ret ok
main
jsent drop
jempty in send
first c0 in
jend c0 out
unlink c0
jkind c0 eos last
aside c0 conn
bclean b0
tail b0 c0
:out
ret ok
:send
pass b0 bad
bclean b0
ret ok
:bad
bclean b0
ret fail
:last
bclean b0
tail b0 c0
pass b0 bad
bclean b0
ret ok
:drop
ret ok
end
"""

# Leaves a copy in `in` with a home in its own pool, which it clears in its next call, and fails.
LEAVES_COPIES = """
module 1
pool p0 conn
open
pcreate p0
ret ok
init
ret ok
main
pclear p0
first c0 in
jend c0 out
aside c0 p0
copy c1 c0
tail in c1
:out
ret fail
end
"""

# Passes what comes with a bucket of its own call in front, and leaves another one of its call behind the pass.
LEAVES_ITS_OWN = """
module 1
open
ret ok
init
ret ok
main
jsent drop
clearbuf
put 65 made
:made
transient c0
head in c0
pass in bad
bclean in
transient c2
tail in c2
ret ok
:bad
ret fail
:drop
ret ok
end
"""

# Sends what comes from a brigade on a pool of the request, with bytes that lie in that pool in front, and clears it behind.
SENDS_FROM_A_POOL = """
module 1
pool p0 req
brigade b0 p0
open
ret ok
init
pcreate p0
bcreate b0
ret ok
main
jsent drop
clearbuf
put 66 made
:made
bconcat b0 in
poolb c0 p0
head b0 c0
heap c1 "loose"
transient c2
pass b0 bad
pclear p0
bcreate b0
ret ok
:bad
pclear p0
bcreate b0
ret fail
:drop
ret ok
end
"""

# Reads the buckets that come and drops the odd ones, then makes its pools anew.
READS = """
module 1
pool p0 conn
pool p1 p0
brigade b0 p1
open
pcreate p0
pcreate p1
label p1 "made"
bcreate b0
ret ok
init
label req "begun"
ret ok
main
jsent drop
bconcat b0 in
first c0 b0
:walk
jend c0 send
read c0 send
aside c0 p1
next c0 c0
jump walk
:send
pass b0 bad
:bad
pdestroy p0
pcreate p0
pcreate p1
label p1 "again"
bcreate b0
ret ok
:drop
ret ok
end
"""

# Passes what comes twice: as copies, and as it is.
SENDS_TWICE = """
module 1
brigade b0 req
open
ret ok
init
bcreate b0
ret ok
main
jsent drop
first c0 in
:walk
jend c0 send
jkind c0 eos send
copy c1 c0
tail b0 c1
next c0 c0
jump walk
:send
pass b0 bad
bclean b0
pass in bad
ret ok
:bad
bclean b0
ret fail
:drop
ret fail
end
"""

# Passes what comes, and leaves.
LEAVES_AT_ONCE = """
module 1
open
ret ok
init
ret ok
main
jsent drop
pass in bad
leave
ret ok
:bad
leave
ret fail
:drop
bclean in
leave
ret fail
end
"""

# Keeps the first data of a request for the next one, leaves, and passes what it kept before with the rest.
LEAVES_SOME = """
module 1
brigade b0 conn
brigade b1 req
open
bcreate b0
ret ok
init
bcreate b1
ret ok
main
jsent drop
first c0 in
:look
jend c0 send
jkind c0 data take
next c0 c0
jump look
:take
leave
unlink c0
aside c0 conn
bconcat b1 b0
tail b0 c0
pass b1 bad
bclean b1
:send
pass in bad
bclean b1
ret ok
:bad
bclean b1
ret fail
:drop
ret ok
end
"""

# Leaves before it passes copies, and passes what came where its pool is cleared.
LEAVES_BETWEEN = """
module 1
pool p0 req
brigade b0 p0
open
ret ok
init
pcreate p0
bcreate b0
ret ok
main
jsent drop
leave
first c0 in
jend c0 send
jkind c0 eos send
copy c1 c0
tail b0 c1
pass b0 bad
pclear p0
bcreate b0
:send
leave
pass in bad
ret ok
:bad
bclean b0
ret fail
:drop
ret ok
end
"""

# Its pools tell when they go: what is registered first is told last, and before what is told of the pool below.
TELLS = """
module 1
pool p0 conn
pool p1 p0
open
pcreate p0
pcreate p1
prelabel p0 "first"
label p1 "below"
prelabel p1 "before below"
label p0 "last"
prelabel conn "opened"
ret ok
init
prelabel req "begun"
label req "ended"
ret ok
main
jsent drop
pass in bad
:bad
pclear p0
pcreate p1
prelabel p0 "again"
label p1 "below again"
unlabel p0 "again"
ret ok
:drop
pdestroy p1
pcreate p1
ret ok
end
"""


def text_of(lines):
    return lines.lstrip('\n').encode('ascii')


MEETING = [text_of(lines) for lines in (
    CLEARS_BEHIND, KEEPS, LEAVES_COPIES, LEAVES_ITS_OWN, SENDS_FROM_A_POOL, READS, SENDS_TWICE, TELLS)]
LEAVING = [text_of(lines) for lines in (LEAVES_AT_ONCE, LEAVES_SOME, LEAVES_BETWEEN)]
# The first clears what the second one has kept.
PAIR = [text_of(lines) for lines in (SENDS_FROM_A_POOL, KEEPS)]
