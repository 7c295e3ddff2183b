// The system that gemshowal runs on in a page: WASI's first preview, with a command line, files that are bytes in memory,
// and nothing else. There is no network, no clock and no environment, and a call that isn't here returns NO_CALL.

const DONE = 0, NO_DESCRIPTOR = 8, NO_FILE = 44, NO_CALL = 52;
const FOLDER = 3, REGULAR = 4;
const CREATE = 1, TRUNCATE = 8;

// The descriptors of standard output, of standard error and of the one folder.
const OUTPUT = 1, ERRORS = 2, ROOT = 3;

// The end of a program, which it throws through its own frames.
class Ended {}

class OpenFile {
  constructor(bytes) { this.bytes = bytes; this.at = 0; this.pieces = []; }

  read(most) {
    const piece = this.bytes.subarray(this.at, this.at + most);
    this.at += piece.length;
    return piece;
  }

  // What was written follows what was there.
  whole() {
    const pieces = [this.bytes, ...this.pieces], whole = new Uint8Array(pieces.reduce((sum, piece) => sum + piece.length, 0));
    let at = 0;
    for (const piece of pieces) { whole.set(piece, at); at += piece.length; }
    return whole;
  }
}

class System {
  // `files` has the bytes of each file by its name.
  constructor(words, files) {
    this.words = words.map(word => new TextEncoder().encode(word + "\0"));
    this.files = files;
    this.opened = [0, OUTPUT, ERRORS, ROOT].map(() => new OpenFile(new Uint8Array()));
    this.written = new Map();
  }

  get view() { return new DataView(this.memory.buffer); }

  bytes(at, length) { return new Uint8Array(this.memory.buffer, at, length); }

  text(at, length) { return new TextDecoder().decode(this.bytes(at, length)); }

  set(at, number) { this.view.setUint32(at, number, true); return DONE; }

  setLong(at, number) { this.view.setBigUint64(at, BigInt(number), true); return DONE; }

  // Calls the function for each piece of memory of a list of them, and notes the sum of what it returns.
  each(list, count, sumAt, call) {
    let sum = 0;
    for (let at = list; at < list + 8 * count; at += 8)
      sum += call(this.bytes(this.view.getUint32(at, true), this.view.getUint32(at + 4, true)));
    return this.set(sumAt, sum);
  }

  setState(at, kind, size) {
    this.bytes(at, 64).fill(0);
    this.view.setUint8(at + 16, kind);
    return this.setLong(at + 32, size);
  }

  args_sizes_get(countAt, sizeAt) {
    this.set(countAt, this.words.length);
    return this.set(sizeAt, this.words.reduce((sum, word) => sum + word.length, 0));
  }

  args_get(listAt, at) {
    for (const [number, word] of this.words.entries()) {
      this.set(listAt + 4 * number, at);
      this.bytes(at, word.length).set(word);
      at += word.length;
    }
    return DONE;
  }

  environ_sizes_get(countAt, sizeAt) { this.set(countAt, 0); return this.set(sizeAt, 0); }

  environ_get() { return DONE; }

  random_get(at, length) { crypto.getRandomValues(this.bytes(at, length)); return DONE; }

  proc_exit() { throw new Ended(); }

  fd_prestat_get(file, at) {
    if (file !== ROOT) return NO_DESCRIPTOR;
    this.set(at, 0);
    return this.set(at + 4, 1);
  }

  fd_prestat_dir_name(file, at) { this.bytes(at, 1).set([47]); return DONE; }

  fd_fdstat_get(file, at) {
    if (this.opened[file] === undefined) return NO_DESCRIPTOR;
    this.bytes(at, 24).fill(255);
    this.view.setUint32(at, file === ROOT ? FOLDER : REGULAR, true);
    return DONE;
  }

  fd_filestat_get(file, at) {
    if (this.opened[file] === undefined) return NO_DESCRIPTOR;
    return this.setState(at, file === ROOT ? FOLDER : REGULAR, this.opened[file].bytes.length);
  }

  fd_read(file, list, count, sumAt) {
    return this.each(list, count, sumAt, piece => {
      const taken = this.opened[file].read(piece.length);
      piece.set(taken);
      return taken.length;
    });
  }

  fd_write(file, list, count, sumAt) {
    return this.each(list, count, sumAt, piece => {
      this.opened[file].pieces.push(piece.slice());
      return piece.length;
    });
  }

  fd_seek(file, by, from, at) {
    const own = this.opened[file];
    own.at = Number(by) + [0, own.at, own.bytes.length][from];
    return this.setLong(at, own.at);
  }

  fd_close() { return DONE; }

  path_filestat_get(folder, flags, path, length, at) {
    const bytes = this.files.get(this.text(path, length));
    return bytes === undefined ? NO_FILE : this.setState(at, REGULAR, bytes.length);
  }

  path_open(folder, lookup, path, length, how, rights, inherited, flags, at) {
    const name = this.text(path, length), bytes = this.files.get(name);
    if (bytes === undefined && (how & CREATE) === 0) return NO_FILE;
    const file = new OpenFile(bytes === undefined || (how & TRUNCATE) !== 0 ? new Uint8Array() : bytes);
    if ((how & CREATE) !== 0) this.written.set(name, file);
    return this.set(at, this.opened.push(file) - 1);
  }

  // Runs a program to its end, and returns what it wrote to standard output, to standard error and to files.
  async run(program) {
    const calls = new Proxy(this, { get: (own, name) => own[name]?.bind(own) ?? (() => NO_CALL) });
    const { exports } = await WebAssembly.instantiate(program, { wasi_snapshot_preview1: calls });
    const text = file => new TextDecoder().decode(file.whole());
    this.memory = exports.memory;
    try { exports._start(); } catch (end) {
      // A panic says why, and then traps.
      if (!(end instanceof Ended)) throw Error(text(this.opened[ERRORS]) + end);
    }
    const written = [...this.written.values()].map(text);
    return { output: text(this.opened[OUTPUT]), errors: text(this.opened[ERRORS]), written };
  }
}
