// The page: a story on the left, its run on the right, by the program's own calls in workers.
const part = (id) => document.getElementById(id);
const parts = JSON.parse(part('parts').textContent);
const text = (bytes) => new TextDecoder().decode(bytes);
const bytesOf = (base64) => Uint8Array.from(atob(base64), (c) => c.charCodeAt(0));

// What comes of bytes that go through a stream, where it is not longer than the most.
async function piped(bytes, stream, most = Infinity) {
    const chunks = [];
    let length = 0;
    const reader = new Blob([bytes]).stream().pipeThrough(stream).getReader();
    for (let it = await reader.read(); !it.done; it = await reader.read()) {
        length += it.value.length;
        if (length > most) throw new Error('too long');
        chunks.push(it.value);
    }
    return new Uint8Array(await new Blob(chunks).arrayBuffer());
}

// ---- the calls

// The workers are all alike, and each has one call at a time: the picture, the words and the report come side by side. Those that wait have
// the module compiled, and there are as many again as a run takes, for the run after one that is broken off.
const AT_ONCE = 3;
const ready = [], busy = new Set();
let module = null;

// A call that is broken off fails with this.
class Older extends Error {}

function begin() {
    const source = new Blob([part('worker').textContent], { type: 'text/javascript' });
    const it = { thread: new Worker(URL.createObjectURL(source)), done: null, failed: null };
    it.thread.onerror = ({ message }) => { busy.delete(it); it.failed?.(new Error(message)); };
    it.thread.onmessage = ({ data }) => {
        if (busy.delete(it)) ready.push(it);
        if (data.error) it.failed?.(new Error(data.error)); else it.done(data);
    };
    // A compiled module can't be handed to a worker of a page that was opened from a disk, so each compiles it.
    it.thread.postMessage({ module });
    ready.push(it);
}

function fill(count) { while (ready.length + busy.size < count) begin(); }

// From now on the calls are of this module.
function take(bytes) {
    stop();
    module = bytes;
    for (const { thread } of ready.splice(0)) thread.terminate();
    fill(AT_ONCE);
}

// A call that is under way is of an older story: it is broken off.
function stop() {
    for (const { thread, failed } of busy) {
        thread.terminate();
        failed(new Older());
    }
    busy.clear();
}

// The answer of a command at an input: a status, and the bytes that the command line writes.
function call(command, input) {
    return new Promise((done, failed) => {
        if (ready.length === 0) begin();
        const it = Object.assign(ready.shift(), { done, failed });
        busy.add(it);
        it.thread.postMessage({ command, input });
    });
}

// ---- the story

const story = part('story'), state = part('state');
const LINE = 20, TOP = 8;
const EVENTS = new Set(['submit', 'raw', 'pass', 'drain', 'lie', 'suspect', 'join', 'renew', 'tick']);
let eventLines = [], faulty = 0, lit = -1;

function number() {
    const lines = story.value.split('\n');
    eventLines = [];
    lines.forEach((line, i) => { if (EVENTS.has(line.trim().split(/\s/)[0])) eventLines.push(i + 1); });
    part('lines').textContent = lines.map((_, i) => i + 1).join('\n');
}

function band() {
    part('lines').scrollTop = story.scrollTop;
    part('bands').replaceChildren(...[[eventLines[lit], 'lit'], [faulty, 'bad']].filter(([line]) => line).map(([line, kind]) => {
        const it = document.createElement('div');
        it.className = kind;
        it.style.top = `${TOP + (line - 1) * LINE - story.scrollTop}px`;
        return it;
    }));
}

// ---- the run

const panes = [part('picture'), part('words'), part('report')];
const shadow = part('picture').attachShadow({ mode: 'open' });
const ELEMENTS = new Set(['svg', 'title', 'style', 'defs', 'marker', 'path', 'rect', 'line', 'circle', 'text', 'tspan']);
const ATTRIBUTES = new Set(['class', 'cx', 'cy', 'd', 'height', 'id', 'markerHeight', 'markerWidth', 'orient', 'r', 'refX', 'refY', 'role',
    'viewBox', 'width', 'x', 'x1', 'x2', 'xml:space', 'xmlns', 'y', 'y1', 'y2']);

// The picture is text of the program's making; it is taken only where it holds what a picture holds.
function picture(svg) {
    const made = new DOMParser().parseFromString(svg, 'image/svg+xml').documentElement;
    for (const it of [made, ...made.querySelectorAll('*')]) {
        const strange = [...it.attributes].find(({ name }) => !ATTRIBUTES.has(name));
        if (!ELEMENTS.has(it.localName) || strange) throw new Error(`the picture holds ${strange?.name ?? it.localName}`);
    }
    return document.importNode(made, true);
}

function show(svg) {
    const made = picture(svg);
    const band = document.createElementNS(made.namespaceURI, 'rect');
    band.setAttribute('id', 'lit');
    band.setAttribute('width', '100%');
    band.setAttribute('height', '0');
    made.querySelector('.paper').after(band);
    const style = document.createElement('style');
    style.textContent = `:host { display: block } svg { max-width: none } #lit { fill: #fff3c4 }
        @media (prefers-color-scheme: dark) { #lit { fill: #3b3410 } }`;
    shadow.replaceChildren(style, made);
    made.onclick = ({ offsetY }) => {
        const at = ruled().findLastIndex((y) => y <= offsetY);
        if (at >= 0) light(at);
    };
}

// Where each event begins in the picture.
const ruled = () => [...shadow.querySelectorAll('text.event')].map((it) => Number(it.getAttribute('y')) - 12);

function tell(words) {
    const blocks = [];
    for (const line of words.replace(/\n$/, '').split('\n')) {
        const found = /^event (\d+):/.exec(line);
        if (found || blocks.length === 0) {
            blocks.push(document.createElement('div'));
            if (found) blocks.at(-1).dataset.event = found[1];
        }
        blocks.at(-1).textContent += `${line}\n`;
    }
    part('words').replaceChildren(...blocks);
}

function light(event, moves = true) {
    const slider = part('event');
    lit = slider.disabled || event > Number(slider.max) ? -1 : event;
    if (lit >= 0) slider.value = lit;
    part('which').textContent = lit < 0 ? '' : `${lit} of ${slider.max}`;
    for (const it of part('words').querySelectorAll('div')) {
        const is = it.dataset.event === String(lit);
        it.classList.toggle('lit', is);
        if (is && moves) part('words').scrollTop = it.offsetTop - part('words').offsetTop - 40;
    }
    lightPicture(moves);
    band();
}

function lightPicture(moves) {
    const rules = ruled(), svg = shadow.querySelector('svg'), mark = shadow.getElementById('lit');
    if (!mark) return;
    const begins = rules[lit];
    const ends = rules[lit + 1] ?? Number(svg.getAttribute('height')) - 208;
    mark.setAttribute('y', begins ?? 0);
    mark.setAttribute('height', begins === undefined ? '0' : Math.max(ends - begins, 15));
    if (moves && begins !== undefined) part('picture').scrollTop = begins - 60;
}

function say(words, isBad) {
    state.textContent = words;
    state.classList.toggle('bad', isBad);
    story.setAttribute('aria-invalid', String(isBad));
}

function stale(is) { for (const it of panes) it.classList.toggle('stale', is); }

// ---- a run

let asked = 0;

// The program's own line, or why there is none: 1, 3 and 4 come where no memory is left.
function line({ status, bytes }) {
    return text(bytes).trim() || (status === 1 || status === 4 ? 'No memory is left for this story.' : `It stopped with status ${status}.`);
}

// Shows what is asked of the schedule: a status that is not 0 is told in its place. A schedule without a report has words and a picture.
function present(made, [drawn, told, report], begun) {
    const failed = [drawn, told].find(({ status }) => status !== 0) ?? (report.status === 1 || report.status === 4 ? report : null);
    if (failed) {
        say(line(failed), true);
        return;
    }
    show(text(drawn.bytes));
    tell(text(told.bytes));
    part('report').textContent = text(report.bytes);
    const slider = part('event');
    const events = part('words').querySelectorAll('[data-event]').length;
    slider.disabled = events === 0;
    slider.max = Math.max(events - 1, 0);
    light(Math.min(Math.max(lit, 0), events - 1), false);
    stale(false);
    say(`${made.bytes.length} bytes, ${events} events, ${Math.round(performance.now() - begun)} ms`, false);
}

async function run() {
    const mine = ++asked, begun = performance.now();
    document.documentElement.dataset.state = 'running';
    stop();
    number();
    stale(true);
    try {
        const made = await call('assemble', new TextEncoder().encode(story.value));
        if (mine !== asked) return;
        faulty = Number(/^line (\d+):/.exec(text(made.bytes))?.[1] ?? 0);
        band();
        if (made.status !== 0) {
            say(line(made), true);
            return;
        }
        say('running', false);
        const answers = await Promise.all(['draw', 'run', 'replay'].map((command) => call(command, made.bytes)));
        if (mine === asked) present(made, answers, begun);
    } catch (error) {
        if (mine === asked && !(error instanceof Older)) say(`It broke off: ${error.message}`, true);
    } finally {
        if (mine === asked) {
            document.documentElement.dataset.state = 'done';
            setTimeout(() => fill(2 * AT_ONCE), 0);
        }
    }
}

// ---- links and examples

const MOST = 1 << 22;

async function linked() {
    const bytes = await piped(new TextEncoder().encode(story.value), new CompressionStream('deflate-raw'));
    const base64 = btoa(bytes.reduce((all, it) => all + String.fromCharCode(it), ''));
    return `#s=${base64.replaceAll('+', '-').replaceAll('/', '_').replace(/=+$/, '')}`;
}

// The story that a link holds, or null.
async function held() {
    try {
        const bytes = bytesOf(location.hash.replace(/^#s=/, '').replaceAll('-', '+').replaceAll('_', '/'));
        return new TextDecoder('utf-8', { fatal: true }).decode(await piped(bytes, new DecompressionStream('deflate-raw'), MOST));
    } catch {
        return null;
    }
}

function put(value, about) {
    part('about').textContent = about;
    story.value = value;
    story.scrollTop = 0;
    lit = 0;
    return run();
}

function choose(name) {
    const it = parts.examples.find((it) => it.name === name);
    part('example').value = name;
    return put(it.story, it.about);
}

// Takes up the story of the link, where there is a link.
async function open() {
    if (location.hash === '' || location.hash === '#') return choose(parts.first);
    const value = await held();
    if (value !== null) {
        part('example').value = '';
        return put(value, 'From the link.');
    }
    if (story.value === '') await choose(parts.first);
    part('about').textContent = 'The link holds no story.';
}

// ---- begin

let later = 0;

story.addEventListener('input', () => {
    document.documentElement.dataset.state = 'asked';
    asked += 1;
    stop();
    number();
    faulty = 0;
    band();
    // So that the example can be chosen again.
    part('example').value = '';
    clearTimeout(later);
    later = setTimeout(run, 10);
});
story.addEventListener('scroll', band);
document.addEventListener('selectionchange', () => {
    if (document.activeElement !== story) return;
    const line = story.value.slice(0, story.selectionStart).split('\n').length;
    const event = eventLines.indexOf(line);
    if (event >= 0 && event !== lit) light(event);
});
part('event').addEventListener('input', () => light(Number(part('event').value)));
part('words').addEventListener('click', ({ target }) => { if (target.dataset.event) light(Number(target.dataset.event)); });
part('example').addEventListener('change', () => choose(part('example').value));
part('link').addEventListener('click', async () => {
    location.hash = await linked();
    const where = await navigator.clipboard.writeText(location.href).then(() => 'clipboard', () => 'address bar');
    say(`The link is in the ${where}.`, false);
});
addEventListener('hashchange', async () => { if (location.hash !== await linked()) open(); });

part('example').replaceChildren(...parts.examples.map(({ name }) => new Option(name.replaceAll('_', ' '), name)));
try {
    const bytes = await piped(bytesOf(parts.module), new DecompressionStream('gzip'));
    if (!WebAssembly.validate(bytes)) throw new Error('it needs WebAssembly with a memory of 64-bit addresses');
    take(bytes);
    // For the console, and for test.py.
    window.rampart = { call, linked, take, module: bytes };
    await open();
} catch (error) {
    say(`This browser does not take the module: ${error.message}`, true);
    document.documentElement.dataset.state = 'failed';
}
