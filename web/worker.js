// Makes the calls of the page, each on a fresh instance of the module: nothing of one call is left for the next.
const NUMBERS = { assemble: 0, text: 1, run: 2, draw: 3 };
// A block of the module's heap is a power of two, of which 16 bytes are its own.
const ROOM = (1 << 20) - 16;
let module = null;

function call(command, input) {
    const { memory, page_room, page_story, page_replay } = new WebAssembly.Instance(module).exports;
    const room = (size) => {
        const place = page_room(BigInt(size));
        if (place === 0n) throw new Error('no memory is left');
        return place;
    };
    const given = room(input.length), count = room(8);
    new Uint8Array(memory.buffer).set(input, Number(given));
    for (let size = ROOM;;) {
        const answer = room(size);
        const lies = [given, BigInt(input.length), answer, BigInt(size), count];
        const [program, how] = command.split(' ');
        const answered = program === 'replay' ? page_replay(Number(how === 'short'), ...lies) : page_story(NUMBERS[program], ...lies);
        // A status has 8 bits; what the upper ones of the answer are, nothing says.
        const status = answered & 0xff;
        const length = Number(new DataView(memory.buffer).getBigUint64(Number(count), true));
        if (length <= size) return { status, bytes: new Uint8Array(memory.buffer, Number(answer), length).slice() };
        size = length;
    }
}

onmessage = ({ data }) => {
    const begun = performance.now();
    try {
        if (data.module) module = new WebAssembly.Module(data.module);
        else postMessage({ ...call(data.command, data.input), took: performance.now() - begun });
    } catch (error) {
        postMessage({ error: error.message });
    }
};
