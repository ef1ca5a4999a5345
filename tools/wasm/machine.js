// The machine: a program of the repository as a WebAssembly module, in a worker of the page, or in node. Bytes in, bytes out.
// It is given ten calls of the system: two words, a few files, standard input, which is no terminal, and what it writes. `read` of standard input may have nothing to give yet:
// then the calls of main are put aside (asyncify), and taken up again by `tell`. So a program that reads a line at a time stays alive between the lines,
// and all of its state stays in its own memory.
// What it writes is handed to `heard` as it comes, where that is given.
function started(module, words, files, input, waits, heard) {
  const utf8 = new TextEncoder(), args = words.map(word => utf8.encode(word)), names = Object.keys(files);
  const fds = new Map([[0, { data: input, at: 0, waits }]]), written = { 1: [], 2: [] };
  let fd = 2, memory, isAsleep = false, status = null, room = 0, instance = null;
  const N = Number, bytes = (p, n) => new Uint8Array(memory.buffer, N(p), N(n));
  const has = name => Object.hasOwn(files, name);
  function text(p) {
    const all = new Uint8Array(memory.buffer), from = N(p);
    return new TextDecoder().decode(all.subarray(from, all.indexOf(0, from)));
  }
  function joined(parts) {
    const all = new Uint8Array(parts.reduce((n, part) => n + part.length, 0));
    let at = 0;
    for (const part of parts) { all.set(part, at); at += part.length; }
    parts.length = 0;
    return all;
  }
  const calls = {
    open(p) {
      const name = text(p);
      if (name !== "/" && !has(name)) return -1;
      fds.set(++fd, name === "/" ? { data: new Uint8Array(0), at: 0, isFolder: true } : { data: files[name], at: 0 });
      return fd;
    },
    read(f, p, n) {
      const file = fds.get(f);
      if (!file) return -1n;
      if (isAsleep) { isAsleep = false; instance.exports.asyncify_stop_rewind(); }
      else if (file.waits && file.at === file.data.length) {
        isAsleep = true;
        room = N(instance.exports.room());
        instance.exports.asyncify_start_unwind(room);
        return 0n;
      }
      const count = Math.min(N(n), file.data.length - file.at);
      bytes(p, count).set(file.data.subarray(file.at, file.at + count));
      file.at += count;
      return BigInt(count);
    },
    write(f, p, n) {
      if (!written[f]) return -1n;
      const piece = bytes(p, n).slice();
      if (f === 1 && heard) heard(piece); else written[f].push(piece);
      return n;
    },
    __write: (f, p, n) => calls.write(f, p, n),
    close: f => (fds.delete(f), 0),
    lseek: () => -1n,
    statx(f, p, flags, mask, at) {
      const name = text(p), file = name ? (has(name) ? { data: files[name] } : null) : fds.get(f);
      if (!file || !file.data) return -1;
      const told = new DataView(memory.buffer, N(at), 256);
      bytes(at, 256).fill(0);
      told.setUint32(0, 0x7ff, true);
      told.setUint16(28, file.isFolder ? 0o40755 : 0o100644, true);
      told.setBigUint64(32, BigInt(1000 + (name ? names.indexOf(name) : names.findIndex(it => files[it] === file.data))), true);
      told.setBigUint64(40, BigInt(file.data.length), true);
      return 0;
    },
    rattle_arg(i, p, n) { const arg = args[N(i)]; if (!arg) return -1n; if (arg.length > N(n)) return -2n; bytes(p, arg.length).set(arg); return BigInt(arg.length); },
    rattle_env: () => -1n,
    realpath: () => 0n,
  };
  // what the module wants beyond these answers that it failed
  const wanted = {};
  for (const { name } of WebAssembly.Module.imports(module)) wanted[name] = calls[name] || (() => { throw new Error("the machine was not given " + name); });
  instance = new WebAssembly.Instance(module, { env: wanted });
  memory = instance.exports.memory;
  function run() {
    const ended = instance.exports.main(0, 0n);
    if (isAsleep) instance.exports.asyncify_stop_unwind(); else status = ended;
    return { status, out: joined(written[1]), err: joined(written[2]) };
  }
  function on() {
    if (!isAsleep) throw new Error("the machine has ended");
    instance.exports.asyncify_start_rewind(room);
    return run();
  }
  return {
    first: run(), isAlive: () => isAsleep,
    tell(line) { const file = fds.get(0); file.data = utf8.encode(line); file.at = 0; return on(); },
    end() { fds.get(0).waits = false; return on(); },
  };
}
const ran = (module, words, files, input) => started(module, words, files, input, false).first;
// in a worker: {id, what, ..} is answered by {id, ..}, behind {id, piece} for what a walk writes as it comes; bytes are handed over, and not copied
if (typeof WorkerGlobalScope !== "undefined") {
  const utf8 = new TextEncoder(), none = new Uint8Array(0);
  let module = null, walk = null, asking = 0;
  function decoded(packed) {
    if (Uint8Array.fromBase64) return Uint8Array.fromBase64(packed.trim());
    const text = atob(packed.trim()), bytes = new Uint8Array(text.length);
    for (let i = 0; i < bytes.length; i++) bytes[i] = text.charCodeAt(i);
    return bytes;
  }
  const words = (called, more, steps, ...own) => ["spinview", ...more, "--name", called, ...own, "--choices", "c", "-u", String(steps), "m"];
  const answers = {
    async load({ packed }) {
      const unpacked = new Blob([decoded(packed)]).stream().pipeThrough(new DecompressionStream("gzip"));
      module = await WebAssembly.compileStreaming(new Response(unpacked, { headers: { "Content-Type": "application/wasm" } }));
      return {};
    },
    // a walk from its first state, behind these choices, of at most so many steps. Without words that the model was taken with before, it is taken as it is,
    // or prepared, where the program can do that
    open({ model, called, more, choices, steps }) {
      const heard = piece => postMessage({ id: asking, piece }, [piece.buffer]);
      const begun = how => started(module, words(called, how, steps, "--ask", "--explain"), { m: model, c: choices }, none, true, heard);
      let taken = more || [];
      walk = begun(taken);
      if (!more && walk.first.status === 3) {
        const second = begun(["--prepare"]);
        if (second.first.status === null) taken = ["--prepare"];
        if (second.first.status === null || second.first.status === 3) walk = second;
      }
      return { ...walk.first, more: taken };
    },
    tell: ({ line }) => walk.tell(line),
    // lines of a session behind these choices
    session({ model, called, more, choices, steps, input }) {
      const { out, ...rest } = ran(module, words(called, more, steps), { m: model, c: choices }, utf8.encode(input));
      return { ...rest, said: out };
    },
  };
  onmessage = async x => {
    const since = performance.now();
    asking = x.data.id;
    try { const answer = await answers[x.data.what](x.data); postMessage({ ...answer, id: x.data.id, ms: performance.now() - since }, [answer.out, answer.said, answer.err].filter(Boolean).map(b => b.buffer)); }
    catch (e) { postMessage({ id: x.data.id, failed: String(e && e.message || e) }); }
  };
}
