"""Puts the page together.

assemble.py without-table IN OUT      writes a WebAssembly module without its table. The linker makes an empty one of 64 bits, which
                                      binaryen and older browsers do not read. Fails if the table has entries.
assemble.py page MODULE EXAMPLE OUT   writes the page, with this module and this image. Fails if the module imports something.
assemble.py quick MODULE EXAMPLE OUT  the same, for a module that is not proved, which the page says.
assemble.py module PAGE OUT           writes the module of a page.
"""

import base64
import hashlib
import re
import sys
from pathlib import Path

HERE = Path(__file__).resolve().parent
MAGIC = b"\0asm\1\0\0\0"
IMPORTS, TABLES, ELEMENTS = 2, 4, 9
# What the page says is proved, for a module that is and for one that is not.
PROOFS = {
    "page": "<b>Proved:</b> the code that reads an image, from its first byte to the last character of each report. It is the library of "
    "bootimg, and every function of it is proved. <b>Not proved:</b> the compilation of this code to WebAssembly, its heap, and this page.",
    "quick": "<b>Not proved:</b> this page was built without the proof of the code that reads an image. That code checks itself as it runs.",
}
SCRIPTS = ["library", "texts", "regions", "elements", "map", "page"]


def sections_of(module):
    """The number and the bytes of each section, with the bytes of its number and size."""
    if not module.startswith(MAGIC):
        sys.exit("this is not a WebAssembly module")
    at = len(MAGIC)
    while at < len(module):
        start, number, size, shift = at, module[at], 0, 0
        while True:
            at += 1
            size |= (module[at] & 0x7F) << shift
            shift += 7
            if module[at] < 0x80:
                break
        at += 1 + size
        yield number, module[start:at]


def without_table(module):
    sections = list(sections_of(module))
    if any(number == ELEMENTS for number, _ in sections):
        sys.exit("the table of the module has entries")
    return MAGIC + b"".join(section for number, section in sections if number != TABLES)


def policy_of(scripts, style):
    """What the page may do: run these scripts and the module, and nothing else. It may not connect."""
    def source(text):
        return f"'sha256-{base64.b64encode(hashlib.sha256(text.encode()).digest()).decode()}'"

    return "; ".join(
        [
            "default-src 'none'",
            f"script-src {' '.join(map(source, scripts))} 'wasm-unsafe-eval'",
            f"style-src {source(style)}",
            "base-uri 'none'",
            "form-action 'none'",
        ]
    )


def page_of(module, example, name, proof):
    if any(number == IMPORTS for number, _ in sections_of(module)):
        sys.exit("the module has imports")
    parts = {script: (HERE / f"{script}.js").read_text(encoding="utf-8") for script in SCRIPTS}
    parts["style"] = (HERE / "page.css").read_text(encoding="utf-8")
    parts["policy"] = policy_of([parts[script] for script in SCRIPTS], parts["style"])
    parts["proof"] = proof
    parts["module"] = base64.b64encode(module).decode()
    parts["example"] = base64.b64encode(example).decode()
    parts["example_name"] = re.sub(r"[^A-Za-z0-9._+-]", "_", name)
    template = (HERE / "page.html").read_text(encoding="utf-8")
    return re.sub(r"\{\{(\w+)\}\}", lambda match: parts[match[1]], template)


def module_of(page):
    return base64.b64decode(re.search(r'id="module">([^<]*)<', page)[1])


def main(verb, *paths):
    *inputs, out = map(Path, paths)
    if verb == "without-table":
        out.write_bytes(without_table(inputs[0].read_bytes()))
    elif verb == "module":
        out.write_bytes(module_of(inputs[0].read_text(encoding="utf-8")))
    else:
        module, example = inputs
        out.write_text(page_of(module.read_bytes(), example.read_bytes(), example.name, PROOFS[verb]), encoding="utf-8")


if __name__ == "__main__":
    main(*sys.argv[1:])
