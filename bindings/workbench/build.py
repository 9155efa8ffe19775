#!/usr/bin/env python3
"""Puts the workbench together: one page with everything in it, which opens from a disk.

    bindings/workbench/build.py ENGINE.wasm OUT.html
    bindings/workbench/build.py --data          the data alone, as JSON: examples, hints, words of refusals

Each module becomes a function that answers what it exports, in the order of their imports. Lines of comments and
indents are left out, and nothing else is changed. The page's policy allows this script and this style by their hashes,
and nothing else.
"""
import base64
import gzip
import hashlib
import json
import pathlib
import re
import sys

HERE = pathlib.Path(__file__).resolve().parent
RUST = HERE.parent / "rust"
EXAMPLES = HERE.parent.parent / "examples"
IMPORT = re.compile(r'^import \{([^}]*)\} from "((?:\.\./js|\.)/\w+\.mjs)";\n', re.MULTILINE)
EXPORT = re.compile(r"^export ((?:async )?(?:function|class|const|let) (\w+))", re.MULTILINE)
COMMENT = re.compile(r"^ *(//[^\n]*|/\*\*.*?\*/)\n", re.MULTILINE | re.DOTALL)
NUMBERED = re.compile(r'^ +\w+ = (\d+), "([^"]*)", "([^"]*)";$', re.MULTILINE)


def modules(path, done):
    """The modules that this one needs, and it, as functions, each once."""
    if path in done:
        return
    text = path.read_text("utf8")
    for _, other in IMPORT.findall(text):
        modules((path.parent / other).resolve(), done)
    text = IMPORT.sub(lambda m: f"const {{{m[1].replace(' as ', ': ')}}} = ${pathlib.Path(m[2]).stem};\n", text)
    names = ", ".join(name for _, name in EXPORT.findall(text))
    text = EXPORT.sub(r"\1", text)
    assert not re.search(r"^(import|export)\b", text, re.MULTILINE), path
    text = COMMENT.sub("", text)
    assert all(line.count("`") % 2 == 0 for line in text.splitlines()), f"{path}: a text over several lines"
    text = re.sub(r"^ +|\n(?=\n)", "", text, flags=re.MULTILINE)
    done[path] = f"const ${path.stem} = (() => {{\n{text}\nreturn {{ {names} }};\n}})();\n"


def data():
    """What the page knows: the setter's words, refusals by number, the examples and the story."""
    tables = (RUST / "src" / "refusal.rs").read_text("utf8") + (RUST / "src" / "fault.rs").read_text("utf8")
    files = {f.name: f.read_text("utf8") for f in sorted(EXAMPLES.iterdir()) if f.suffix in (".sheet", ".play")}
    story = {f"story-{f.name}": f.read_text("utf8") for f in sorted(EXAMPLES.glob("story/*.sheet"))}
    return {
        "hints": json.loads((RUST / "text" / "src" / "hints.json").read_text("utf8")),
        "refusals": {number: [word, when] for number, word, when in NUMBERED.findall(tables)},
        "files": files | story,
    }


def hashed(text):
    return "'sha256-" + base64.b64encode(hashlib.sha256(text.encode()).digest()).decode() + "'"


def page(engine):
    """The whole page, with the engine's bytes in it."""
    done = {}
    modules(HERE / "main.mjs", done)
    script = '\n"use strict";\n' + "".join(done.values())
    style = "\n" + (HERE / "style.css").read_text("utf8")
    assert "</" not in script and "</" not in style
    known = data() | {"engine": base64.b64encode(gzip.compress(engine, 9, mtime=0)).decode()}
    parts = {
        "@POLICY@": f"default-src 'none'; script-src {hashed(script)} 'wasm-unsafe-eval'; style-src {hashed(style)}; "
        "base-uri 'none'; form-action 'none'",
        "@STYLE@": style,
        "@DATA@": json.dumps(known).replace("<", "\\u003c"),
        "@SCRIPT@": script,
    }
    return re.sub("|".join(parts), lambda m: parts[m[0]], (HERE / "page.html").read_text("utf8"))


if sys.argv[1:] == ["--data"]:
    print(json.dumps(data()))
elif len(sys.argv) == 3:
    pathlib.Path(sys.argv[2]).write_text(page(pathlib.Path(sys.argv[1]).read_bytes()), encoding="utf8")
else:
    sys.exit(__doc__)
