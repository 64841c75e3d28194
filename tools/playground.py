"""Puts the page of the program together: lockup.html, of the files of browser/, the module and the texts of examples/.

All is in the one file, and a policy in it lets nothing else in: its own scripts and styles, by their hashes, and no network.
The run is shown by the page that the program itself writes, which the module is asked for here, through node."""
import base64
import gzip
import hashlib
import html
import json
import os
import re
import shutil
import subprocess

import kit

PARTS = f"{kit.ROOT}/browser"
CODE = ["parts", "engine", "edits", "link", "script", "run", "moves", "keys", "goals", "settings", "litmus", "plot", "programs", "panels", "what_if",
        "main"]
# the kinds of texts: where the examples of each are, and what reads one
TEXTS = {"scripts": "examples", "litmus": "examples/litmus", "programs": "examples/programs", "exercises": "examples/exercises"}
READERS = {"scripts": ["script", "-"], "litmus": ["walk", "-", "--rounds", "1"], "programs": ["run", "-"], "exercises": ["test", "-"]}
# A page that is longer isn't sent by mail, nor opened at once.
MOST = 1_500_000


def missing():
    """Returns the Debian packages that are needed and not installed."""
    return [] if shutil.which("node") else ["nodejs"]


def note(module, is_unproved):
    """Notes beside a module that it isn't of a proved program, if it isn't."""
    if is_unproved:
        open(f"{module}.unproved", "w", encoding="utf-8").close()
    elif os.path.exists(f"{module}.unproved"):
        os.remove(f"{module}.unproved")


def is_proved(module):
    """Returns whether a module is of a proved program."""
    return os.path.isfile(module) and not os.path.exists(f"{module}.unproved")


def write(module, to, file=None):
    """Writes the page around the module as the file `to`, and has it open with the text of `file`, if one is given. Returns what
    was said where that fails, or None."""
    told, said = ask(module, [(["page", "-"], ""), (["--version"], "")])
    if said or not all(told):
        return f"the module doesn't run: {said or 'it prints nothing'}"
    frame, version = told
    opened, said = text_of(module, file) if file else (None, None)
    if said:
        return said
    text = page_of(module, live(frame), version.strip() + ("" if is_proved(module) else " (not proved)"), opened)
    if len(text) > MOST:
        return f"the page has {len(text)} bytes, and may have {MOST}"
    with open(f"{to}.new", "w", encoding="utf-8", newline="\n") as it:
        it.write(text)
    os.replace(f"{to}.new", to)
    return None


def text_of(module, file):
    """Returns the text of a file with its kind, and what was said where it is none."""
    try:
        with open(file, encoding="utf-8") as it:
            text = it.read()
    except (OSError, UnicodeDecodeError) as wrong:
        return None, f"{file} can't be read: {wrong}"
    kind = kind_of(text)
    return {"kind": kind, "text": text}, ask(module, [(READERS[kind], text)])[1].strip()


def kind_of(text):
    """Returns the kind of a text, which some line of it tells."""
    lines = [it.strip() for it in text.splitlines() if not it.startswith("#")]
    if any(it.startswith("lockup-litmus") for it in lines):
        return "litmus"
    if any(it.startswith("core ") for it in lines):
        return "programs"
    return "exercises" if any("=" in it for it in lines) else "scripts"


def ask(module, calls):
    """Runs the program for each call, which has its words and its input. Returns the output of each, and what the first said
    that isn't taken."""
    asked = json.dumps([{"words": words, "input": latin(text)} for words, text in calls])
    ran = subprocess.run(["node", f"{PARTS}/many.mjs", module], input=asked, capture_output=True, text=True)
    if ran.returncode:
        return [], ran.stderr
    told = json.loads(ran.stdout)
    said = next((it["err"] or "it fails" for it in told if it["status"] not in (0, 1)), "")
    return [it["out"].encode("latin1").decode() for it in told], said


def latin(text):
    """Returns a text with a character for each of its bytes."""
    return text.encode().decode("latin1")


def page_of(module, frame, version, opened):
    """Returns the page, which opens with a text, if there is one."""
    with open(module, "rb") as it:
        # in five signs of 85 for four bytes, of which none begins an element
        packed = base64.b85encode(gzip.compress(it.read(), 9, mtime=0)).decode().replace("<", ",")
    data = {"frame": frame, "worker": without_exports(read("machine.mjs")) + read("worker.js"), "texts": texts(), "opened": opened,
            "about": f"{version}, the whole program in this page. It takes nothing from a network, and sends nothing."}
    code = "'use strict';\n" + "\n".join(read(f"page/{name}.js") for name in CODE)
    style = read("page.css")
    parts = {"policy": html.escape(policy([code, *blocks(frame, "script")], [style, *blocks(frame, "style")])), "style": style,
             "data": json.dumps(data, separators=(",", ":")).replace("<", "\\u003c"), "module": packed, "code": code}
    return re.sub(r"\{\{(\w+)\}\}", lambda found: parts[found[1]], read("page.html"))


def live(frame):
    """Returns the page that the program writes with what makes it take other runs."""
    style, code = read("frame/live.css"), read("frame/live.js")
    frame = frame.replace("</head>", f"<style>{style}</style>\n</head>", 1)
    return frame.replace("</body>", f"<script>{code}</script>\n</body>", 1)


def blocks(page, name):
    """Returns the texts of a page's elements of this name, without those that are data."""
    return re.findall(rf"<{name}>(.*?)</{name}>", page, re.S)


def policy(codes, styles):
    """Returns the policy: these scripts and styles alone, WebAssembly, workers made here, and no network at all."""
    hashed = lambda it: f"'sha256-{base64.b64encode(hashlib.sha256(it.encode()).digest()).decode()}'"
    return (f"default-src 'none'; script-src 'wasm-unsafe-eval' {' '.join(map(hashed, codes))}; "
            f"style-src {' '.join(map(hashed, styles))}; worker-src blob:; img-src data:; base-uri 'none'; form-action 'none'")


def without_exports(code):
    return re.sub(r"^export ", "", code, flags=re.M)


def texts():
    """Returns the examples by kind and name. A trace or a history is no script."""
    found = {}
    for kind, folder in TEXTS.items():
        names = sorted(it for it in os.listdir(f"{kit.ROOT}/{folder}") if it.endswith(".txt"))
        found[kind] = {}
        for name in names:
            with open(f"{kit.ROOT}/{folder}/{name}", encoding="utf-8") as it:
                text = it.read()
            if not re.search(r"^lockup-(trace|history)", text, re.M):
                found[kind][name.removesuffix(".txt")] = text
    return found


def read(name):
    with open(f"{PARTS}/{name}", encoding="utf-8") as it:
        return it.read()
