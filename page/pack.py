#!/usr/bin/env python3
"""This script packs the page into one file, bin/mcf.html: its sources, the style of mcf_plan's
pages, the examples and the module.

esbuild (Debian: esbuild) bundles the sources, which the tests import as modules, and shortens them.
"""
import base64
import gzip
import json
import pathlib
import subprocess
import sys

HERE = pathlib.Path(__file__).resolve().parent
TOP = HERE.parent
PLANS = TOP / "examples" / "plans"
# A page that passes by mail and opens at once: so many bytes at most.
MOST_BYTES = 450_000


def shortened(text, *words):
    """This function returns a text as esbuild shortens it; the words are options."""
    return subprocess.run(
        ["esbuild", "--minify", "--charset=utf8", *words],
        cwd=HERE,
        input=text,
        stdout=subprocess.PIPE,
        encoding="utf-8",
        check=True,
    ).stdout.rstrip("\n")


def script(name):
    """This function returns a source with all that it imports, as one script."""
    text = (HERE / f"{name}.js").read_text(encoding="utf-8")
    return shortened(text, "--bundle", "--format=iife", "--target=es2020")


def examples():
    """This function returns the plans of examples/plans/, with the choices in call.txt."""
    found = []
    for folder in sorted(path.parent for path in PLANS.glob("*/expected")):
        call = folder / "call.txt"
        words = (
            ["flow", "places.csv", "routes.csv"]
            if (folder / "places.csv").exists()
            else ["pairs", "costs.csv"]
        )
        words = call.read_text(encoding="utf-8").split() if call.exists() else words
        heads = " ".join(words[k + 1] for k, word in enumerate(words) if word == "--map")
        files = [word for word in words[1:] if word.endswith(".csv")]
        texts = [(folder / file).read_text(encoding="utf-8-sig") for file in files]
        found.append(
            {
                "name": folder.name,
                "kind": words[0],
                "texts": texts,
                "heads": heads,
                "unused": "--unused" in words,
                "short": "--short" in words,
                "ranges": "--ranges" in words,
                "crossing": "--crossing" in words,
                "each": words[words.index("--each") + 1] if "--each" in words else "",
            }
        )
    return found


def main():
    """This function writes the page."""
    module = (TOP / "bin" / "mcf.wasm").read_bytes()
    style = (TOP / "python" / "mcf_plan" / "page.css").read_text(encoding="utf-8") + (
        HERE / "page.css"
    ).read_text(encoding="utf-8")
    parts = {
        "STYLE": shortened(style, "--loader=css"),
        "EXAMPLES": json.dumps(examples(), ensure_ascii=False).replace("<", "\\u003c"),
        "MODULE": base64.b64encode(gzip.compress(module, 9, mtime=0)).decode(),
        "WORKER": script("worker"),
        "PAGE": script("page"),
    }
    page = (HERE / "page.html").read_text(encoding="utf-8")
    for name, part in parts.items():
        assert "</script" not in part and "@" + name + "@" in page, name
        page = page.replace(f"@{name}@", part)
    (TOP / "bin" / "mcf.html").write_text(page, encoding="utf-8")
    size = len(page.encode())
    print(f"bin/mcf.html: {size} bytes")
    if size > MOST_BYTES:
        sys.exit(f"page: that is more than {MOST_BYTES} bytes")


if __name__ == "__main__":
    main()
