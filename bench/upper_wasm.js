// The loop of `upper` as WebAssembly, compiled by V8: prints how many milliseconds of a processor it takes for so many bytes (the median of some runs).
//
//     node bench/upper_wasm.js 1048576
'use strict';

// (func (export "upper") (param $n i32) (local $i i32) (local $c i32)): from the memory's first MiB into its second, byte by byte.
const code = [
  0x02, 0x40, 0x03, 0x40,
  0x20, 1, 0x20, 0, 0x4f, 0x0d, 1, // i >= n: out
  0x20, 1, 0x2d, 0, 0, 0x21, 2, // c = the byte at i
  0x20, 2, 0x41, 0xe1, 0x00, 0x6b, 0x41, 26, 0x49, 0x04, 0x40, 0x20, 2, 0x41, 32, 0x6b, 0x21, 2, 0x0b, // c - 97 < 26: c = c - 32
  0x20, 1, 0x20, 2, 0x3a, 0, 0x80, 0x80, 0xc0, 0x00, // the byte at i + 1 MiB = c
  0x20, 1, 0x41, 1, 0x6a, 0x21, 1, 0x0c, 0, // i = i + 1
  0x0b, 0x0b, 0x0b,
];
const body = [1, 2, 0x7f, ...code];
const section = (id, bytes) => [id, bytes.length, ...bytes];
const name = (text) => [text.length, ...Buffer.from(text)];
const module_bytes = Uint8Array.from([
  0, 0x61, 0x73, 0x6d, 1, 0, 0, 0,
  ...section(1, [1, 0x60, 1, 0x7f, 0]),
  ...section(3, [1, 0]),
  ...section(5, [1, 0, 32]),
  ...section(7, [2, ...name('upper'), 0, 0, ...name('memory'), 2, 0]),
  ...section(10, [1, body.length, ...body]),
]);

const { upper, memory } = new WebAssembly.Instance(new WebAssembly.Module(module_bytes)).exports;
const size = Math.min(Number(process.argv[2]), 1048576);
const bytes = Buffer.from(memory.buffer);
bytes.fill('The quick brown fox jumps over the lazy dog. 0123456789\n', 0, size);
for (let run = 0; run < 50; run++) upper(size);
const took = [];
for (let run = 0; run < 21; run++) {
  const before = process.cpuUsage();
  for (let k = 0; k < 10; k++) upper(size);
  const { user, system } = process.cpuUsage(before);
  took.push((user + system) / 10000);
}
took.sort((a, b) => a - b);
if (bytes.toString('latin1', 1048576, 1048576 + size) !== bytes.toString('latin1', 0, size).toUpperCase()) process.exit(1);
console.log(took[10].toFixed(3));
