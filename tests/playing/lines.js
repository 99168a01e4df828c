// lines.js SCRIPT: plays command lines in the module that the script play/treadmarks.js has, with its own files and streams, many in one process.
// Reads lines of JSON, { folder, words, stdin, refuse }, and writes for each one { status, out, err, crash, memory }, the outputs in base64.
'use strict';
const fs = require('fs');

const text = fs.readFileSync(process.argv[2], 'utf8').replace(/^#!.*/, '');
const whole = text.slice(0, text.indexOf('\nconst done = play('));
const { play, system, module: program } = new Function('require', `${whole}\nreturn { play, system, module: new WebAssembly.Module(bitsOf(packed)) };`)(require);

for (const line of fs.readFileSync(0, 'utf8').split('\n').filter(Boolean)) {
    const { folder, words, stdin = '', refuse = 0 } = JSON.parse(line);
    process.chdir(folder);
    const written = { 1: [], 2: [] };
    let rest = Buffer.from(stdin, 'base64');
    const done = play(program, {
        words: ['treadmarks', ...words].map(word => Buffer.from(word)),
        refuse,
        system: {
            ...system,
            write: (fd, bytes) => written[fd].push(Buffer.from(bytes)) && bytes.length,
            read(fd, room) {
                if (fd !== 0) return system.read(fd, room);
                const part = rest.subarray(0, room.length);
                room.set(part);
                rest = rest.subarray(part.length);
                return part.length;
            },
            isTerminal: () => false,
        },
    });
    const [out, err] = [1, 2].map(fd => Buffer.concat(written[fd]).toString('base64'));
    process.stdout.write(`${JSON.stringify({ ...done, out, err })}\n`);
}
