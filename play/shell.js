// The program at a shell: `node treadmarks.js WORDS..`, with the files and standard streams that the native program has.
// Stands behind host.js and `packed`, the module (build).

const fs = require('fs');

/** The words as bytes. Node hands them on as texts, in which bytes that are no UTF-8 are lost; Linux keeps them. */
function wordsGiven() {
    const count = process.argv.length - 2;
    try {
        const all = fs.readFileSync('/proc/self/cmdline');
        const cut = [];
        for (let at = 0, end; at < all.length; at = end + 1) {
            end = all.indexOf(0, at);
            cut.push(all.subarray(at, end));
        }
        if (cut.length >= count && process.argv.slice(2).every((word, k) => cut[cut.length - count + k].toString() === word)) return cut.slice(cut.length - count);
    } catch { /* no Linux */ }
    return process.argv.slice(2).map(word => Buffer.from(word));
}

/** What a call answers, or the negated number of its fault. A stream that would let wait is waited for. */
function answerOf(call) {
    for (;;) {
        try {
            return call();
        } catch (fault) {
            if (fault.code === 'EOF') return 0;
            if (fault.code !== 'EAGAIN') return -(faults[fault.code] ?? faults.EIO);
            Atomics.wait(new Int32Array(new SharedArrayBuffer(4)), 0, 0, 5);
        }
    }
}

/** The place in each plain file that the program opened; of a stream the system keeps it. */
const places = new Map();

const system = {
    write: (fd, bytes) => answerOf(() => fs.writeSync(fd, bytes)),
    read: (fd, room) => answerOf(() => {
        const place = places.get(fd) ?? null;
        const count = fs.readSync(fd, room, 0, room.length, place);
        if (place !== null) places.set(fd, place + count);
        return count;
    }),
    open: path => answerOf(() => {
        const fd = fs.openSync(Buffer.from(path), 'r');
        if (fs.fstatSync(fd).isFile()) places.set(fd, 0);
        return fd;
    }),
    close: fd => answerOf(() => {
        places.delete(fd);
        fs.closeSync(fd);
        return 0;
    }),
    seek: (fd, by, whence) => answerOf(() => {
        if (!places.has(fd)) return -faults.ESPIPE;
        const from = [0, places.get(fd), fs.fstatSync(fd).size][whence];
        if (from === undefined || from + by < 0) return -faults.EINVAL;
        places.set(fd, from + by);
        return from + by;
    }),
    isTerminal: fd => require('tty').isatty(fd),
};

const bitsOf = text => require('zlib').gunzipSync(Buffer.from(text, 'base64'));
const done = play(new WebAssembly.Module(bitsOf(packed)), { words: [Buffer.from('treadmarks'), ...wordsGiven()], system });
if (done.crash) answerOf(() => fs.writeSync(2, `treadmarks: stopped by the engine: ${done.crash}\n`));
process.exit(done.status);
