// Tries the heap and the arithmetic of heap.c: node try_heap.mjs MODULE.wasm, which module.sh --heap makes.
import { readFileSync } from 'node:fs';

const e = new WebAssembly.Instance(new WebAssembly.Module(readFileSync(process.argv[2])), {}).exports;
let tried = 0, failed = 0, seed = 12345n;

function holds(what, condition) {
  tried++;
  if (!condition && failed++ < 20) console.log(`${what}: failed`);
}

// Numbers that look random, the same each time.
function random(below) {
  seed = (seed * 6364136223846793005n + 1442695040888963407n) & ((1n << 64n) - 1n);
  return Number((seed >> 33n) % BigInt(below));
}

function wide() {
  const bits = [0, 1, 3, 32, 63, 64, 65, 96, 127, 128][random(10)];
  let made = 0n;
  for (let k = 0; k < 5; k++) made = made << 31n | BigInt(random(2 ** 31));
  const cut = BigInt.asUintN(bits, made);
  return random(2) ? cut : BigInt.asUintN(128, -cut);
}

function arithmetic() {
  const signed = x => BigInt.asIntN(128, x);
  const wanted = [
    (x, y) => x * y, (x, y) => x << (y & 127n), (x, y) => x >> (y & 127n), (x, y) => signed(x) >> (y & 127n),
    x => signed(x) / 8n, x => signed(x) % 1024n, x => signed(x) / (1n << 70n),
  ];
  const at = e.block(48n);
  for (let k = 0; k < 50000; k++) {
    const which = k % wanted.length, x = wide(), y = wide();
    const p = new BigUint64Array(e.memory.buffer, Number(at), 6);
    [x, y].forEach((it, place) => { p[2 * place] = BigInt.asUintN(64, it); p[2 * place + 1] = it >> 64n; });
    e.tried(at, BigInt(which));
    holds(`${which} of ${x} and ${y}`, (p[5] << 64n | p[4]) === BigInt.asUintN(128, wanted[which](x, y)));
  }
  e.release(at);
}

// Blocks are taken, made longer and given back; each has its own bytes, which none of this may touch.
function blocks() {
  const taken = [];
  const bytes = it => new Uint8Array(e.memory.buffer, Number(it.at), it.size);
  const size = () => [random(40), random(1000), random(100000)][random(3)];
  const result = e.block(16n);
  for (let k = 0; k < 30000; k++) {
    const what = random(5);
    if (what < 2 || !taken.length) {
      const it = { size: size(), fill: random(256) };
      it.at = e.block(BigInt(it.size));
      holds('a block begins at a multiple of 16', it.at && it.at % 16n === 0n);
      bytes(it).fill(it.fill);
      taken.push(it);
      continue;
    }
    const place = random(taken.length), it = taken[place];
    holds('a block keeps its bytes', bytes(it).every(byte => byte === it.fill));
    if (what === 2) {
      const kept = it.size;
      it.size = Math.max(size(), 1);
      e.rattle_realloc(result, it.at, BigInt(kept), BigInt(it.size), 1n);
      const [ok, at] = new BigUint64Array(e.memory.buffer, Number(result), 2);
      it.at = at;
      const front = bytes(it).subarray(0, Math.min(kept, it.size));
      holds('a block that is moved keeps them', ok === 1n && front.every(byte => byte === it.fill));
      bytes(it).fill(it.fill);
    } else {
      e.release(it.at);
      taken.splice(place, 1);
    }
  }
  holds('the memory does not grow without end', e.memory.buffer.byteLength < 2 ** 29);
}

function comparing() {
  const at = e.block(64n), to = e.block(64n);
  for (let k = 0; k < 3000; k++) {
    const size = random(65), [p, q] = [at, to].map(it => new Uint8Array(e.memory.buffer, Number(it), 64));
    for (let n = 0; n < 64; n++) p[n] = q[n] = random(256);
    if (size && random(4)) q[random(size)] = random(256);
    const order = Buffer.compare(p.subarray(0, size), q.subarray(0, size));
    holds('memcmp', Math.sign(Number(e.compared(at, to, BigInt(size)))) === order);
  }
}

function refusing() {
  holds('too much is refused', e.block(1n << 47n) === 0n && e.block(1n << 40n) === 0n);
  holds('and then less is not', e.block(1000n) !== 0n);
}

for (const part of [arithmetic, blocks, comparing, refusing]) part();
console.log(`the heap: ${tried - failed} passed, ${failed} failed`);
process.exit(failed ? 1 : 0);
