"""Writes the page as one file: bundle.py OUT MODULE.wasm

Everything that the page reads lies in it: style, scripts, the module and the examples of examples/*.story.
"""
import base64, gzip, hashlib, json, pathlib, re, sys

HERE = pathlib.Path(__file__).resolve().parent
FIRST = "three_senders_one_liar"


def about_of(text):
    """What an example's first lines of comment say."""
    lines = []
    for line in text.split("\n"):
        if not line.startswith("#"):
            break
        lines.append(line.removeprefix("#").strip())
    return " ".join(lines)


def script_text(value):
    """A value as it may be in a script element."""
    return json.dumps(value).replace("<", "\\u003c")


def main(out, module):
    stories = sorted((HERE.parent / "examples").glob("*.story"))
    texts = {it.stem: it.read_text() for it in stories}
    packed = base64.b64encode(gzip.compress(pathlib.Path(module).read_bytes(), 9, mtime=0)).decode()
    examples = [{"name": name, "about": about_of(text), "story": text} for name, text in texts.items()]
    script = (HERE / "page.js").read_text()
    digest = base64.b64encode(hashlib.sha256(script.encode()).digest()).decode()
    fill = {
        "script-hash": f"'sha256-{digest}'",
        "style": (HERE / "page.css").read_text(),
        "worker": (HERE / "worker.js").read_text(),
        "script": script,
        "parts": script_text({"first": FIRST, "examples": examples, "module": packed}),
    }
    page = re.sub(r"\{(script-hash|style|worker|script|parts)\}", lambda it: fill[it[1]], (HERE / "page.html").read_text())
    pathlib.Path(out).write_text(page)
    print(f"{out}: {len(page.encode())} bytes, {len(texts)} examples")


main(*sys.argv[1:])
