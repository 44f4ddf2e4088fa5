"""Tries the page in a headless Chromium: test.py [FOLDER] [story=FILE] [rampart=FILE] [drawn=N] [faulty=N] [pictures=FOLDER]

FOLDER, web/out unless it is given, has what `web/build` wrote. The two programs are those that were proved and built, unless they are given
(`./story --prove`). Each example gives the same schedule, words, picture and report as they and as the repository's files, byte for byte,
status included; so do drawn schedules (tools/draw.py), 300 unless it is said, and texts with a fault (tools/compare_stories.py), 200. Then
what the page makes of it: a faulty line is marked, with the program's own words; a link brings its story back; each control has a name; a
phone scrolls one way alone; nothing is loaded; a run that is under way is broken off; want of memory is told. Rooms of several sizes, and
each block of the heap refused in turn. Both modules, in node too where it is installed. With `pictures=` it draws the page four times.

The times of 100 ms are meant for a machine that does nothing else. Without a browser nothing is tried, and the status is 0.
"""
import base64, collections, json, pathlib, random, re, shutil, subprocess, sys, zlib
from browser import Browser, found

HERE = pathlib.Path(__file__).resolve().parent
TOP = HERE.parent
sys.path.insert(0, str(TOP / "tools"))
sys.dont_write_bytecode = True
import compare_stories, draw

COMMANDS = {"assemble": "story", "text": "story", "run": "story", "draw": "story", "replay": "rampart", "replay short": "rampart"}
SOON, TRIES = 100, 5

# ---- what is done on the page

HELPERS = """
globalThis.packed = (bytes) => btoa(bytes.reduce((all, c) => all + String.fromCharCode(c), ''));
globalThis.unpacked = (text) => Uint8Array.from(atob(text), (c) => c.charCodeAt(0));
globalThis.settled = () => new Promise((done) => {
    const root = document.documentElement;
    const look = () => { if (['done', 'failed'].includes(root.dataset.state)) { watch.disconnect(); done(); } };
    const watch = new MutationObserver(look);
    watch.observe(root, { attributes: true });
});
globalThis.typed = async (text) => {
    const box = document.getElementById('story'), begun = performance.now();
    const shown = settled();
    box.value = text;
    box.dispatchEvent(new Event('input'));
    await shown;
    return performance.now() - begun;
};
globalThis.chosen = (name) => {
    const box = document.getElementById('example'), shown = settled();
    box.value = name;
    box.dispatchEvent(new Event('change'));
    return shown;
};
globalThis.lit = () => [...document.querySelectorAll('#words .lit')].map((it) => it.dataset.event).join();
globalThis.picture = () => document.getElementById('picture').shadowRoot;
// A click on the picture where the event with this number begins.
globalThis.clicked = (event) => {
    document.getElementById('picture').scrollTop = 0;
    const svg = picture().querySelector('svg'), { x, y } = svg.getBoundingClientRect();
    const down = Number(picture().querySelectorAll('text.event')[event].getAttribute('y'));
    svg.dispatchEvent(new MouseEvent('click', { clientX: x + 30, clientY: y + down }));
    return [lit(), Number(picture().getElementById('lit').getAttribute('y')) === down - 12];
};
globalThis.ended = async (text) => {
    const box = document.getElementById('story');
    box.value = text;
    box.dispatchEvent(new Event('input'));
    await new Promise((done) => setTimeout(done, 400));
    return document.documentElement.dataset.state;
};
// A call with a room of this size, each byte 0xee; where a block is refused, with this number.
globalThis.made = async (module, command, input, size, refused) => {
    const { memory, page_room, page_story, page_replay, page_refuse } = (await WebAssembly.instantiate(module)).exports;
    const given = page_room(BigInt(input.length)), count = page_room(8n), room = page_room(BigInt(size));
    new Uint8Array(memory.buffer).set(input, Number(given));
    new Uint8Array(memory.buffer, Number(room), size).fill(0xee);
    const lies = [given, BigInt(input.length), room, BigInt(size), count];
    page_refuse?.(BigInt(refused));
    const number = ['assemble', 'text', 'run', 'draw'].indexOf(command);
    const answered = number < 0 ? page_replay(Number(command === 'replay short'), ...lies) : page_story(number, ...lies);
    const status = answered & 0xff;
    const left = Number(page_refuse?.(0n) ?? 0);
    const whole = Number(new DataView(memory.buffer).getBigUint64(Number(count), true));
    return { status, whole, left, room: packed(new Uint8Array(memory.buffer, Number(room), size)) };
};
// What the call answers where a block is refused: from this one on, so many blocks, or fewer where there are no more.
globalThis.refused = async (module, command, input, size, first, count) => {
    const answers = [];
    while (answers.length < count) {
        const answer = await made(module, command, input, size, first + answers.length);
        if (answer.left > 0) break;
        answers.push(answer);
    }
    return answers;
};
0
"""

CALL = "rampart.call(%s, unpacked(%s)).then((it) => [it.status, packed(it.bytes), it.took])"
CHOOSE = "chosen(%s)"


def packed(given):
    return json.dumps(base64.b64encode(given).decode())


class Trial:
    def __init__(self, browser, page, programs):
        self.browser, self.page, self.programs = browser, page, programs
        self.passed, self.failed, self.longest = 0, [], {}

    def holds(self, what, so):
        if so:
            self.passed += 1
        else:
            self.failed.append(what)
            print(f"page: FAILED: {what}", flush=True)

    def part(self, part, *given):
        """A part that breaks off has failed, and the next one is tried."""
        try:
            part(self, *given)
        except Exception as error:
            self.holds(f"{part.__name__}: {error!r}", False)

    def open(self, link=""):
        self.browser.open(self.page + link)
        self.value(HELPERS)

    def value(self, expression):
        return self.browser.value(expression)

    def text_of(self, name):
        return self.value(f"document.getElementById({json.dumps(name)}).textContent")

    def type(self, text):
        return self.value(f"typed({json.dumps(text)})")

    def ran(self, command, given):
        """What the program of the command line answers, or None where there is none."""
        program = self.programs.get(COMMANDS[command])
        if program:
            done = subprocess.run([program, *command.split()], input=given, capture_output=True)
            return done.returncode, done.stdout or done.stderr
        return None

    def call(self, what, command, given):
        """The page's answer, held to that of the command line where there is one."""
        status, out, took = self.value(CALL % (json.dumps(command), packed(given)))
        answer = status, base64.b64decode(out)
        self.longest[command] = max(took, self.longest.get(command, 0))
        ran = self.ran(command, given)
        if ran:
            self.holds(f"{what}: {command} as on the command line", answer == ran)
        return answer


def example_files():
    return sorted((TOP / "examples").glob("*.story"))


def has_trees(story):
    return re.search(r"^group \S+ (lms|hss)", story.read_text(), re.M) is not None


# ---- answers


def answers_are_the_files(t, story):
    """What the commands make of an example: the files of the repository. Gives the words and the report, for the page."""
    name = story.stem
    status, schedule = t.call(name, "assemble", story.read_bytes())
    t.holds(f"{name}: the schedule", status == 0 and schedule == story.with_suffix(".rps").read_bytes())
    _, words = t.call(name, "run", schedule)
    _, drawn = t.call(name, "draw", schedule)
    _, report = t.call(name, "replay", schedule)
    t.holds(f"{name}: the report", report == story.with_suffix(".report").read_bytes())
    picture = TOP / "docs/pictures" / f"{name}.svg"
    if picture.exists():
        t.holds(f"{name}: the picture", drawn == picture.read_bytes())
    return words, drawn, report


def examples(t):
    for story in example_files():
        name = story.stem
        words, drawn, report = answers_are_the_files(t, story)
        for command in ("text", "replay short"):
            t.call(name, command, story.with_suffix(".rps").read_bytes())
        t.value(CHOOSE % json.dumps(name))
        t.holds(f"{name}: the words on the page", t.text_of("words") == words.decode())
        t.holds(f"{name}: the report on the page", t.text_of("report") == report.decode())
        # All elements but the svg itself, and one more: the mark of the event that is lit.
        shown = t.value("picture().querySelectorAll('svg *').length")
        t.holds(f"{name}: the picture on the page", shown == len(re.findall(rb"<[a-z]", drawn)))
        t.value("document.getElementById('event').value = 1e9, document.getElementById('event').dispatchEvent(new Event('input'))")
        lit = t.value("[...document.querySelectorAll('#words .lit')].map((it) => it.textContent.split('\\n')[0]).join()")
        last = [it for it in words.decode().split("\n") if it.startswith("event ")][-1:]
        t.holds(f"{name}: the last event is lit", lit == "".join(last))


def drawn_schedules(t, count):
    """Schedules from numbers: each command's answer is the program's, and the text gives the schedule back."""
    texts = []
    for number in range(count):
        given = draw.drawn(number)
        what = f"the schedule from {number}"
        status, text = t.call(what, "text", given)
        for command in ("run", "draw", "replay"):
            t.call(what, command, given)
        if status == 0:
            texts.append(text.decode("latin-1"))
            t.holds(f"{what}: told and assembled", t.call(what, "assemble", text) == (0, given))
    return [text for text in texts if len(text) < 4000 and text.count("\n") > 3]


def faulty_texts(t, texts, count):
    faults = compare_stories.Faults(1)
    asked = 0
    while texts and asked < count:
        made = faults.one(faults.draw.choice(texts))
        if not made:
            continue
        asked += 1
        text, line, expected = made
        status, told = t.call(f"a text with a fault, {asked}", "assemble", text.encode("latin-1"))
        t.holds(f"a text with a fault, {asked}: its line", status == 5 and told.startswith(f"line {line}: expected {expected}".encode()))


def drawn_and_faulty(t, count, faulty):
    faulty_texts(t, drawn_schedules(t, count), faulty)


def other_bytes(t):
    noise = random.Random(1)
    for given in (b"", b"\0" * 9, b"RPS1", b"RPX1", b"\xff\xfe", noise.randbytes(300), noise.randbytes(70000)):
        for command in COMMANDS:
            t.call(f"{len(given)} other bytes", command, given)


# ---- rooms and the heap


def front_is_held(answer, status, whole, size):
    room = base64.b64decode(answer["room"])
    front = min(len(whole), size)
    return answer["status"] == status and answer["whole"] == len(whole) and room == whole[:front] + b"\xee" * (size - front)


def small_calls():
    schedule = (TOP / "examples/three_senders.rps").read_bytes()
    story = (TOP / "examples/three_senders.story").read_bytes()
    good = [("assemble", story), *((command, schedule) for command in COMMANDS if command != "assemble")]
    return [*good, ("replay", b"no"), ("assemble", b"no\n")]


def rooms(t):
    t.value("WebAssembly.compile(rampart.module).then((it) => { globalThis.whole = it; })")
    for command, given in small_calls():
        status, whole = t.call("rooms", command, given)
        for size in (0, 1, len(whole), len(whole) + 9):
            answer = t.value(f"made(whole, {json.dumps(command)}, unpacked({packed(given)}), {size}, 0)")
            t.holds(f"{command} in a room of {size} bytes", front_is_held(answer, status, whole, size))


def all_refused(t, command, given, size, at_once=20):
    """What a call answers without each of its blocks. A browser has room for some hundred instances, and is told to let go of them."""
    answers = []
    while len(answers) % at_once == 0:
        first = len(answers) + 1
        more = t.value(f"refused(trial, {json.dumps(command)}, unpacked({packed(given)}), {size}, {first}, {at_once})")
        t.browser.ask("HeapProfiler.collectGarbage")
        if not more:
            break
        answers += more
    return answers


def refusals(t, trial):
    """Each block of the heap refused in turn: 1 or 4, or the whole answer."""
    t.value(f"WebAssembly.compile(unpacked({packed(trial)})).then((it) => {{ globalThis.trial = it; }})")
    story = (TOP / "examples/one_member.story").read_bytes()
    schedule = (TOP / "examples/one_member.rps").read_bytes()
    for command, given in [("assemble", story), ("text", schedule), ("run", schedule), ("draw", schedule), ("replay", schedule)]:
        status, whole = t.call("refusals", command, given)
        answers = all_refused(t, command, given, len(whole))
        for number, answer in enumerate(answers, 1):
            silent = answer["status"] == 1 and answer["whole"] == 0
            so = silent or answer["status"] == 4 or front_is_held(answer, status, whole, len(whole))
            t.holds(f"{command} without block {number}", so)
        statuses = collections.Counter(answer["status"] for answer in answers)
        print(f"page: {command}: {len(answers)} blocks; how often each status came where one is refused: {dict(statuses)}", flush=True)
        t.holds(f"{command}: want of memory was met", statuses[1] + statuses[4] > 0)


def want_of_memory(t, trial):
    t.open()
    t.value(f"rampart.take(unpacked({packed(trial)}))")
    story = (TOP / "examples/three_senders.story").read_text()
    t.type("# " + "a" * 3_000_000 + "\n" + story)
    t.holds("want of memory is told", t.text_of("state") == "No memory is left for this story.")
    t.type("# " + "a" * 9_000_000 + "\n" + story)
    t.holds("want of memory for the story itself is told", "memory" in t.text_of("state"))
    t.type(story)
    t.holds("and then the page goes on", t.text_of("words").startswith("process 0: correct"))


# ---- the page


def faults(t):
    lines = (TOP / "examples/three_senders.story").read_text().split("\n")
    lines[8] = 'submit 9 "a'
    for line, text in ((1, "grup 0 plain\n"), (9, "\n".join(lines))):
        _, told = t.call("faults", "assemble", text.encode())
        t.type(text)
        so = t.text_of("state") == told.decode().strip() and told.startswith(b"line %d: expected " % line)
        t.holds(f"line {line}: the program's words", so)
        marks = t.value("[...document.querySelectorAll('#bands .bad')].map((it) => it.style.top)")
        t.holds(f"line {line}: is marked", marks == [f"{8 + 20 * (line - 1)}px"])
        marked = t.value("document.getElementById('story').getAttribute('aria-invalid')")
        role = t.value("document.getElementById('state').getAttribute('role')")
        t.holds(f"line {line}: is told to a reader of the screen", (marked, role) == ("true", "status"))


def lights(t):
    """The caret, a click on words and one on the picture each light their event."""
    t.value(CHOOSE % json.dumps("three_senders_one_liar"))
    caret = "[...document.getElementById('story').value.matchAll(/^(submit|drain|lie|tick) .*$/gm)][3].index"
    t.value(f"document.getElementById('story').focus(), document.getElementById('story').setSelectionRange({caret}, {caret})")
    t.value("new Promise((done) => setTimeout(done, 50))")
    t.holds("the caret lights its event", t.value("lit()") == "3")
    t.value("document.querySelector('#words [data-event=\"5\"]').click()")
    t.holds("a click on words lights their event", t.value("lit()") == "5")
    t.holds("a click on the picture lights its event", t.value("clicked(1)") == ["1", True])
    t.type("# changed\n")
    t.holds("an example that was changed can be chosen again", t.value("document.getElementById('example').value") == "")


def links(t):
    text = 'group 00000000000000000000000000000000 plain\nprocess 0 correct plain 9\ngenesis 0\nsubmit 0 "<b>&\'\\"é"\ndrain 9 to all\n'
    t.type(text)
    link = t.value("rampart.linked()")
    t.open(link)
    t.holds("a link brings its story back", t.value("document.getElementById('story').value") == text)
    t.holds("it is none of the examples", t.value("document.getElementById('example').value") == "")
    t.type(text.replace("é", ""))
    t.open(t.value("rampart.linked()"))
    t.holds("the story of a link runs", "event 1: " in t.text_of("words"))
    for fragment in ("#s=nonsense", "#s=", "#other", "#s=%00", linked(b"#" * 10_000_000), linked(b"\xff" * 9)):
        t.open(fragment)
        t.holds(f"a link without a story: {fragment[:20]}", t.text_of("about") == "The link holds no story.")
        t.holds("and the first example runs", t.value("document.querySelectorAll('#words div').length") > 0)


def linked(given):
    """The fragment that holds these bytes."""
    made = zlib.compressobj(9, zlib.DEFLATED, -15)
    return "#s=" + base64.urlsafe_b64encode(made.compress(given) + made.flush()).decode().rstrip("=")


def names(t):
    nodes = t.browser.ask("Accessibility.getFullAXTree")["nodes"]
    wants = {"button", "combobox", "slider", "textbox"}
    bare = [it["role"]["value"] for it in nodes if it.get("role", {}).get("value") in wants and not it.get("name", {}).get("value")]
    t.holds(f"each control has a name: {bare}", not bare)
    t.browser.ask("Emulation.setDeviceMetricsOverride", width=360, height=740, deviceScaleFactor=1, mobile=True)
    t.holds("a phone scrolls one way alone", t.value("document.documentElement.scrollWidth") <= 360)
    t.browser.ask("Emulation.clearDeviceMetricsOverride")
    loaded = "performance.getEntriesByType('resource').filter((it) => !/^(blob|data):/.test(it.name)).length"
    t.holds("nothing is loaded from elsewhere", t.value(loaded) == 0)
    asked = "fetch('https://example.org/').then(() => 'sent', () => 'not sent')"
    t.holds("nothing can be sent", t.value(asked) == "not sent")


def times(t):
    print("page: ms from the last key to what it shows:", end="")
    for story in example_files():
        text = story.read_text()
        if not has_trees(story):
            took = min(t.type(f"{text}# {i}\n") for i in range(TRIES))
            print(f" {story.stem} {took:.0f}", end="", flush=True)
            t.holds(f"{story.stem}: shown within {SOON} ms ({took:.0f})", took <= SOON)
    print()
    slow = (TOP / "examples/two_levels.story").read_text()
    small = (TOP / "examples/one_member.story").read_text()
    took = []
    for i in range(TRIES):
        t.holds("a story of trees is under way", t.value(f"ended({json.dumps(f'{slow}# {i}')})") == "running")
        took.append(t.type(f"{small}# {i}\n"))
    t.holds(f"a run that is under way is broken off by the next key within {SOON} ms ({min(took):.0f})", min(took) <= SOON)
    t.holds("and what follows is shown", t.text_of("report") == (TOP / "examples/one_member.report").read_text())


# ---- both modules


def other_module(t, module):
    """The module of 64-bit addresses, which not every browser takes."""
    t.open()
    if not t.value(f"WebAssembly.validate(unpacked({packed(module)}))"):
        print("page: this browser takes no module of 64-bit addresses")
        return
    t.value(f"rampart.take(unpacked({packed(module)}))")
    for story in example_files():
        answers_are_the_files(t, story)


def in_node(t, module):
    node = shutil.which("node")
    if not node:
        print("page: node is not installed, so the module was not tried in it")
        return
    files = [(command, file, wanted) for story in example_files() for command, file, wanted in (
        ("assemble", story, story.with_suffix(".rps")), ("replay", story.with_suffix(".rps"), story.with_suffix(".report")),
        ("draw", story.with_suffix(".rps"), TOP / "docs/pictures" / f"{story.stem}.svg"))]
    flag = ["--experimental-wasm-memory64"]
    if subprocess.run([node, *flag, "-e", ""], capture_output=True).returncode:
        flag = []
    lines = "".join(f"{command}\t{file}\n" for command, file, _ in files)
    done = subprocess.run([node, *flag, HERE / "calls.js", module], input=lines, capture_output=True, text=True)
    answers = done.stdout.splitlines()
    t.holds(f"{module.name} in node: {done.stderr[-300:]}", len(answers) == len(files))
    for (command, file, wanted), answer in zip(files, answers):
        if wanted.exists():
            status, _, out = answer.split(" ")
            so = base64.b64decode(out) == wanted.read_bytes() and (status == "0" or command == "replay")
            t.holds(f"{module.name} in node: {command} of {file.name}", so)


# ---- pictures of the page


def pictures(t, folder):
    folder.mkdir(parents=True, exist_ok=True)
    t.open()
    t.value("document.getElementById('event').value = 4, document.getElementById('event').dispatchEvent(new Event('input'))")
    t.browser.picture(folder / "page.png", 1280, 900)
    t.browser.picture(folder / "page_dark.png", 1280, 900, dark=True)
    t.browser.picture(folder / "page_phone.png", 360, 740)
    t.type((TOP / "examples/three_senders.story").read_text().replace("submit 1", "submit 9"))
    t.browser.picture(folder / "page_fault.png", 1280, 900)


def main(*words):
    if not found():
        print("page: no browser is installed, so nothing was tried")
        return 0
    said = dict(it.split("=", 1) for it in words if "=" in it)
    folder = pathlib.Path(next((it for it in words if "=" not in it), HERE / "out")).resolve()
    built = {name: TOP / "crates" / name / "out" / name for name in ("story", "rampart")}
    programs = {name: said.get(name) or (file if file.exists() else None) for name, file in built.items()}
    if None in programs.values():
        print("page: not both programs are built, so answers are held to the repository's files alone")
    trial = (folder / "trial.wasm").read_bytes()
    with Browser() as browser:
        t = Trial(browser, (folder / "rampart.html").as_uri(), programs)
        t.open()
        t.holds(f"the page starts: {t.text_of('state')}", t.value("document.documentElement.dataset.state") == "done")
        if "pictures" in said:
            t.part(pictures, pathlib.Path(said["pictures"]).resolve())
        t.open()
        for part in (names, faults, lights, examples, other_bytes, rooms, links, times):
            t.part(part)
        t.part(drawn_and_faulty, int(said.get("drawn", 300)), int(said.get("faulty", 200)))
        t.part(refusals, trial)
        t.part(want_of_memory, trial)
        t.part(other_module, (folder / "page64.wasm").read_bytes())
        for module in ("page.wasm", "page64.wasm"):
            t.part(in_node, folder / module)
        print("page: ms of the longest call:", {word: round(took) for word, took in t.longest.items()})
        print(f"page: {t.passed} passed, {len(t.failed)} failed")
        return int(bool(t.failed))


if __name__ == "__main__":
    sys.exit(main(*sys.argv[1:]))
