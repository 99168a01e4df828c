// Required by node before the script: at the end, the processor seconds of its first thread go to the file OWN_TIME. What the others take, which compile
// the module further, is beside it on a machine that has a processor for them.
process.on('exit', () => {
    const fs = require('fs');
    fs.writeFileSync(process.env.OWN_TIME, String(fs.readFileSync(`/proc/self/task/${process.pid}/schedstat`, 'utf8').split(' ')[0] / 1e9));
});
