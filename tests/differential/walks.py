"""Code as filters have it, for the generator to fill in: walks along brigades, and changes of single buckets.

B is a brigade with buckets, O another one, c and d are cursors, n and m numbers, P a pool, x a number or a constant, T and U
texts, l the front of labels' names.
"""

WALKS = [
    # one bucket after the other goes to another brigade
    ':{l}1 / first {c} {B} / jend {c} {l}2 / unlink {c} / tail {O} {c} / jump {l}1 / :{l}2',
    # the same, and the order is turned
    ':{l}1 / first {c} {B} / jend {c} {l}2 / unlink {c} / head {O} {c} / jump {l}1 / :{l}2',
    # the data goes
    'first {c} {B} / :{l}1 / jend {c} {l}3 / jkind {c} data {l}2 / next {c} {c} / jump {l}1 / '
    ':{l}2 / bdelete {c} / first {c} {B} / jump {l}1 / :{l}3',
    # the metadata goes
    'first {c} {B} / :{l}1 / jend {c} {l}3 / next {d} {c} / jkind {c} data {l}2 / bdelete {c} / first {d} {B} / '
    ':{l}2 / jend {d} {l}3 / next {c} {d} / jkind {d} data {l}1 / bdelete {d} / first {c} {B} / jump {l}1 / :{l}3',
    # a bucket comes before each EOS
    'first {c} {B} / :{l}1 / jend {c} {l}3 / jkind {c} eos {l}2 / jump {l}4 / :{l}2 / flush {d} / before {d} {c} / '
    ':{l}4 / next {c} {c} / jump {l}1 / :{l}3',
    # two buckets stay, the others go to another brigade
    'set {n} 0 / first {c} {B} / :{l}1 / jend {c} {l}2 / next {c} {c} / add {n} 1 / jlt {n} 2 {l}1 / :{l}2 / bsplit {B} {c} {O}',
    # a brigade is cut at a point, and what is behind it becomes the front
    'bpart {B} {x} {c} {l}1 / bsplit {B} {c} {O} / bconcat {O} {B} / :{l}1',
    # all bytes go into the buffer, and become one bucket
    'clearbuf / :{l}1 / first {c} {B} / jend {c} {l}4 / jkind {c} data {l}2 / jump {l}3 / '
    ':{l}2 / read {c} {l}3 / set {n} 0 / :{l}5 / get {m} {n} {l}3 / put {m} {l}3 / add {n} 1 / jump {l}5 / '
    ':{l}3 / bdelete {c} / jump {l}1 / :{l}4 / frombuf {c} / tail {B} {c} / clearbuf',
]

CHANGES_OF_ONE = [
    'first {c} {B} / split {c} {x} {l}1 / next {d} {c} / unlink {d} / head {B} {d} / :{l}1',
    'first {c} {B} / split {c} 1 {l}1 / next {d} {c} / len {n} {d} / split {d} {n} {l}1 / :{l}1',
    'first {c} {B} / copy {d} {c} / tail {O} {d}',
    'first {c} {B} / copy {d} {c} / before {d} {c} / bdelete {c}',
    'first {c} {B} / aside {c} {P} / unlink {c} / tail {O} {c}',
    'first {c} {B} / unlink {c} / aside {c} {P} / tail {B} {c}',
    'first {c} {B} / read {c} {l}1 / get {n} 0 {l}1 / put {n} {l}1 / frombuf {d} / tail {B} {d} / :{l}1',
    'first {c} {B} / read {c} {l}1 / get {n} {x} {l}1 / put {n} {l}1 / poolb {d} {P} / before {d} {c} / :{l}1 / clearbuf',
    'first {c} {B} / read {c} {l}1 / unlink {c} / get {n} 0 {l}2 / add {n} 1 / put {n} {l}2 / :{l}2 / tail {O} {c} / :{l}1',
    'first {c} {B} / read {c} {l}1 / split {c} 1 {l}1 / get {n} 1 {l}1 / set {n} 77 / :{l}1',
    'transient {c} / tail {O} {c} / first {d} {O} / jkind {d} transient {l}1 / clearbuf / :{l}1 / aside {c} {P}',
    'poolb {c} {P} / copy {d} {c} / head {O} {c} / tail {O} {d}',
    'heap {c} {T} / head {B} {c} / immortal {d} {U} / before {d} {c}',
    'eos {c} / flush {d} / tail {O} {d} / before {c} {d} / unlink {c} / bdelete {c}',
    'bpart {B} {x} {c} {l}1 / jend {c} {l}1 / heap {d} {T} / before {d} {c} / :{l}1',
]

# Q is a pool that is cleared.
CLEARED = 'poolb {c} {Q} / copy {d} {c} / pclear {Q} / jkind {c} heap {l}1 / set {m} 55 / :{l}1 / jkind {d} pool {l}2 / set {m} 56 / :{l}2'


def lines_of(template, words):
    """The lines of a template with these words."""
    return template.format(**words).split(' / ')


def audit(buckets, length, words):
    """Lines that walk along a brigade with these buckets; m counts what is not as it is now."""
    lines = ['first {c} {B}']
    for number, bucket in enumerate(buckets):
        lines += ['jkind {c} %s {l}k%d' % (bucket.kind, number), 'add {m} 1', ':{l}k%d' % number, 'len {n} {c}',
                  'jeq {n} %d {l}n%d' % (length(bucket), number), 'add {m} 1', ':{l}n%d' % number, 'next {c} {c}']
    lines += ['jend {c} {l}e', 'add {m} 1', ':{l}e']
    return [line.format(**words) for line in lines]
