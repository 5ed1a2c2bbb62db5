#!/usr/bin/env -S python3 -BI
"""Makes the package's single files: make.py SOURCES MODULES

Into the folder SOURCES it writes `inline.js`, an ES module, and `inline.cjs`, which is CommonJS. Each has all of the
package in it: its code, that of the worker, and both WebAssembly modules of the folder MODULES. The package's files
come one behind another, without what they import and export: no two of them may declare the same name.
"""
import base64
import json
import re
import sys
from pathlib import Path

HERE = Path(__file__).resolve().parent
MODULES = {"OWN_MODULE": "proved_argon2.wasm", "SHARED_MODULE": "proved_argon2_shared.wasm"}
COMMENT = re.compile(r"^ *(?://[^\n]*|/\*\*.*?\*/)\n", re.M | re.S)
IMPORT = re.compile(r"^(?:import (?:\{[^}]*\}|\* as (\w+))|export \*) from '\./(\w+)\.js';\n", re.M)
EXPORT = re.compile(r"^export (?=(?:async )?(?:const|let|function|class) (\w+))", re.M)
LISTED = re.compile(r"^export \{([^}]*)\};\n", re.M)
LEFT = re.compile(r"^(?:import|export)\b.*", re.M)
DECLARED = re.compile(r"^(?:async )?(?:function|const|let|class) (\w+)", re.M)


class Bundle:
    """Files of the package. A file comes after those that it imports."""

    def __init__(self, folder, assets=None):
        self.folder, self.assets, self.exports = folder, assets, {}

    def text(self, name):
        """A file's text after the texts of the files that it imports, without those already returned."""
        if name in self.exports:
            return ""
        is_asset = name == "assets" and self.assets is not None
        text = COMMENT.sub("", self.assets if is_asset else (self.folder / f"{name}.js").read_text(encoding="utf-8"))
        self.exports[name] = EXPORT.findall(text)
        imported = "".join(self.text(other) for _, other in IMPORT.findall(text))
        return imported + EXPORT.sub("", IMPORT.sub(self.all_of, text))

    def all_of(self, found):
        """The replacement of an import: an object, if it imports all that a file exports."""
        names, other = found.groups()
        return names and f"const {names} = {{ {', '.join(self.exports[other])} }};\n"


def checked(text):
    """A text, in which nothing is imported or exported, and no name is declared twice."""
    names = DECLARED.findall(text)
    faults = [*LEFT.findall(text), *{name for name in names if names.count(name) > 1}]
    if faults:
        sys.exit(f"make.py: not known, or declared twice: {faults}")
    return text


def inlined(folder, modules):
    """The code in front of the package's own code: constants that contain its assets."""
    assets = {"WORKER": f"(() => {{\n'use strict';\n{checked(Bundle(folder).text('worker'))}}})();\n"}
    for name, file in MODULES.items():
        assets[name] = base64.b64encode((modules / file).read_bytes()).decode()
    return "".join(f"const {name} = {json.dumps(value)};\n" for name, value in assets.items())


def main():
    folder, modules = map(Path, sys.argv[1:])
    package = Bundle(folder, (HERE / "assets.js").read_text(encoding="utf-8"))
    text = package.text("index").replace("export default", "const all =")
    names = ", ".join([*package.exports["errors"], *re.split(r",\s+", LISTED.search(text)[1].strip(" ,\n"))])
    text = checked(LISTED.sub("", text))
    body = ("// The package proved-argon2 as one file, made of its sources by bindings/javascript/inline/make.py.\n"
            f"{inlined(folder, modules)}{text}")
    (folder / "inline.js").write_text(f"{body}export {{ {names}, all as default }};\n", encoding="utf-8")
    (folder / "inline.cjs").write_text(
        f"'use strict';\n{body}const exported = {{ {names}, default: all }};\n"
        "module.exports = Object.defineProperty(exported, '__esModule', { value: true });\n", encoding="utf-8")


main()
