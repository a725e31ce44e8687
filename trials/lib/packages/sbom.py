"""Checks that the SBOM of a folder is an SPDX document with the checksums of all packages there.

usage: sbom.py FOLDER NAME
"""

import json
import pathlib
import re
import sys

folder, name = pathlib.Path(sys.argv[1]), sys.argv[2]
document = json.loads((folder / name).read_text())
assert document["spdxVersion"] == "SPDX-2.3" and document["dataLicense"] == "CC0-1.0", "it isn't SPDX 2.3"

sums = dict(reversed(line.split()) for line in (folder / "SHA256SUMS").read_text().splitlines())
assert sums.pop(name), "the SBOM isn't in SHA256SUMS"
packages = {package["packageFileName"]: package for package in document["packages"] if "packageFileName" in package}
stated = {file: package["checksums"][0]["checksumValue"] for file, package in packages.items()}
assert stated == sums, f"it states {stated}, but SHA256SUMS has {sums}"
for file, package in packages.items():
    assert package["licenseConcluded"] == package["licenseDeclared"] == "Apache-2.0", f"the licence of {file}"
    assert re.match(r"git commit [0-9a-f]{40}|sources without a commit", package["sourceInfo"]), package["sourceInfo"]

kits = [package["versionInfo"] for package in document["packages"] if package["name"] == "rattle-kit"]
assert all(re.search(r"logic [0-9a-f]+$", kit) for kit in kits), f"a kit without a logic: {kits}"

elements = [document, *document["packages"], *document["files"]]
names = [element["SPDXID"] for element in elements]
assert len(set(names)) == len(names), "a name occurs twice"
for name in names:
    assert re.fullmatch(r"SPDXRef-[A-Za-z0-9.-]+", name), name
for relation in document["relationships"]:
    assert {relation["spdxElementId"], relation["relatedSpdxElement"]} <= set(names), relation
