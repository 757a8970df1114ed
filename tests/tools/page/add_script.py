"""Writes a page with one more script, and a file for it.

add_script.py PAGE SCRIPT FILE OUT   the element with the id `chosen` has the bytes of FILE in Base64, and its name. The policy of the page
                                     allows the script.
"""

import base64
import hashlib
import sys
from pathlib import Path


def main(page, script, file, out):
    text, added = Path(page).read_text(encoding="utf-8"), Path(script).read_text(encoding="utf-8")
    checksum = base64.b64encode(hashlib.sha256(added.encode()).digest()).decode()
    text = text.replace("script-src ", f"script-src 'sha256-{checksum}' ", 1)
    name, data = Path(file).name, base64.b64encode(Path(file).read_bytes()).decode()
    element = f'<script type="application/base64" id="chosen" data-name="{name}">{data}</script>'
    Path(out).write_text(text.replace("</body>", f"{element}\n<script>{added}</script>\n</body>"), encoding="utf-8")


main(*sys.argv[1:])
