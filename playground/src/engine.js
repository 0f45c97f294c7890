// ---- The program, in a worker, off the page's own thread, so that a long search can be stopped.

// This function's text is the worker's whole script. The first message has the module in base64; each later one is
// { words, source }, and is answered by { status, text, time } or by { fault } or { trap }.
function engine() {
  const LEAST_ROOM = 1 << 20, MOST_ROOM = 1 << 26, WRITE_FAULT = 8;
  let module;

  function compile(base64) {
    const letters = atob(base64), bytes = new Uint8Array(letters.length);
    for (let k = 0; k < bytes.length; k++) bytes[k] = letters.charCodeAt(k);
    module = new WebAssembly.Module(bytes);
  }

  // Each call has an instance of its own, so no call sees what another one left, not even after a trap.
  function call(words, source, room) {
    const e = new WebAssembly.Instance(module, {}).exports;
    const block = size => {
      const at = e.block(BigInt(size));
      if (at === 0n) throw new RangeError('no memory is left');
      return at;
    };
    const given = [...words, source].flatMap(text => {
      const bytes = new TextEncoder().encode(text), at = block(bytes.length);
      new Uint8Array(e.memory.buffer, Number(at), bytes.length).set(bytes);
      return [at, BigInt(bytes.length)];
    });
    const out = block(room), answer = block(16);
    [e.unity_one, e.unity_two, e.unity_three][words.length - 1](...given, out, BigInt(room), answer);
    // (the memory may have grown, and then has a new buffer)
    const told = new DataView(e.memory.buffer, Number(answer), 16);
    const text = new Uint8Array(e.memory.buffer, Number(out), Number(told.getBigUint64(8, true)));
    return { status: told.getUint32(0, true), text: new TextDecoder().decode(text) };
  }

  // Where the room is too small for the text, the call is made again with more.
  function answer(words, source) {
    for (let room = LEAST_ROOM; ; room *= 8) {
      const told = call(words, source, room);
      if (told.status !== WRITE_FAULT) return told;
      if (room >= MOST_ROOM) return { fault: 'The answer is longer than 64 MB, which is too long for this page.' };
    }
  }

  onmessage = ({ data }) => {
    const begun = performance.now();
    try {
      if (data.module) {
        compile(data.module);
        postMessage({ ready: true, time: performance.now() - begun });
      } else {
        const told = answer(data.words, data.source);
        postMessage({ ...told, time: performance.now() - begun });
      }
    } catch (e) {
      // A stack that is used up, or a trap, which a proved program has only by a want of stack or memory.
      postMessage(data.module ? { ready: false, fault: e.message } : { trap: e.message });
    }
  };
}
