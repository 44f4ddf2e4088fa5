// Makes calls of a module in node, by worker.js: node calls.js MODULE.wasm. Each line of standard input is a command, a tab and a file;
// the answer is a line: the status, the milliseconds that it took, and the bytes in base64. A module of 64-bit addresses wants node 22 or
// later, or the flag --experimental-wasm-memory64.
const fs = require('fs'), path = require('path'), readline = require('readline'), vm = require('vm');

let answer = null;
const scope = vm.createContext({ WebAssembly, performance, postMessage: (data) => { answer = data; } });
vm.runInContext(fs.readFileSync(path.join(__dirname, 'worker.js'), 'utf8'), scope);
const post = (data) => { answer = null; scope.onmessage({ data }); return answer; };

const failed = post({ module: fs.readFileSync(process.argv[2]) });
if (failed) throw new Error(failed.error);
readline.createInterface({ input: process.stdin }).on('line', (line) => {
    const [command, file] = line.split('\t');
    const { status, bytes, took, error } = post({ command, input: fs.readFileSync(file) });
    if (error) throw new Error(`${line}: ${error}`);
    console.log(`${status} ${took.toFixed(2)} ${Buffer.from(bytes).toString('base64')}`);
});
