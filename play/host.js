// What a module of the program asks of the world (imports.c), of a system that answers. The same in node and in a Web Worker.
'use strict';

/** The numbers that Linux has for these faults, by which the program knows them. */
const faults = { EPERM: 1, ENOENT: 2, EIO: 5, EBADF: 9, EAGAIN: 11, ENOMEM: 12, EACCES: 13, ENOTDIR: 20, EISDIR: 21, EINVAL: 22, ENFILE: 23, EMFILE: 24, EFBIG: 27, ENOSPC: 28, ESPIPE: 29, EROFS: 30, EPIPE: 32, ENAMETOOLONG: 36, ELOOP: 40, EOVERFLOW: 75 };

class Exit extends Error {
    constructor(status) {
        super(`exit ${status}`);
        this.status = status;
    }
}

/**
 * Runs the program once, in an instance of its own, and returns { status, memory }, where the engine stopped it with its words as `crash`.
 *   words    the arguments, the program's name first: byte arrays
 *   system   write(fd, bytes), read(fd, room), open(path), close(fd), seek(fd, by, whence), isTerminal(fd): each answers a count, a file or
 *            a place, or a negated number of `faults`; a path is bytes
 *   refuse   the request for memory that is refused, for tests
 */
function play(module, { words, system, refuse = 0 }) {
    let exports = null;
    const bytes = (at, length) => new Uint8Array(exports.memory.buffer, Number(at), Number(length));
    const host = {
        write: (fd, at, length) => BigInt(system.write(fd, bytes(at, length))),
        read: (fd, at, length) => BigInt(system.read(fd, bytes(at, length))),
        open: (path, length, flags) => (flags & 3 ? -faults.EROFS : system.open(bytes(path, length).slice())),
        close: fd => system.close(fd),
        lseek: (fd, by, whence) => BigInt(system.seek(fd, Number(by), whence)),
        isatty: fd => Number(system.isTerminal(fd)),
        clock: which => (which === 0 ? Date.now() : performance.now()) * 1e6,
        exit(status) { throw new Exit(status); },
    };
    exports = new WebAssembly.Instance(module, { host }).exports;
    const ended = how => ({ ...how, memory: exports.memory.buffer.byteLength });
    try {
        const list = Number(exports.room(BigInt(8 * (words.length + 1))));
        const put = (k, address) => new DataView(exports.memory.buffer).setBigUint64(list + 8 * k, address, true);
        words.forEach((word, k) => {
            const address = exports.room(BigInt(word.length + 1));
            bytes(address, word.length + 1).set([...word, 0]);
            put(k, address);
        });
        put(words.length, 0n);
        if (refuse) exports.refuse(BigInt(refuse));
        return ended({ status: exports.start(BigInt(words.length), BigInt(list)) });
    } catch (fault) {
        return ended(fault instanceof Exit ? { status: fault.status } : { status: 134, crash: String(fault) });
    }
}
