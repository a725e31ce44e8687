"""Prints an SBOM of the packages, in SPDX 2.3: what they were made of, and the checksums.

usage: sbom.py VERSION SECONDS SOURCES KIT LIBRARIES PACKAGE..

SECONDS is its timestamp, SOURCES the sources that the packages were made from, KIT the output of `rt version`,
or empty, LIBRARIES the folder of the two libraries. Two runs with the same files print the same.
"""

import datetime
import hashlib
import json
import pathlib
import sys

LICENCE = {"licenseConcluded": "Apache-2.0", "copyrightText": "NOASSERTION"}


def checksums(path, *names):
    content = path.read_bytes()
    return [{"algorithm": name, "checksumValue": hashlib.new(name.lower(), content).hexdigest()} for name in names]


def of_package(path, version, sources):
    return {
        "SPDXID": f"SPDXRef-Package-{path.name.replace('_', '-')}",
        "name": "bucket",
        "versionInfo": version,
        "packageFileName": path.name,
        "downloadLocation": "NOASSERTION",
        "filesAnalyzed": False,
        "sourceInfo": sources,
        "checksums": checksums(path, "SHA256"),
        "licenseDeclared": "Apache-2.0",
        **LICENCE,
    }


def of_kit(line):
    return {
        "SPDXID": "SPDXRef-Kit",
        "name": "rattle-kit",
        "versionInfo": line,
        "downloadLocation": "NOASSERTION",
        "filesAnalyzed": False,
        "comment": "It proved and compiled the library, which contains its heap calls.",
        "licenseDeclared": "NOASSERTION",
        **LICENCE,
        "licenseConcluded": "NOASSERTION",
    }


def of_file(path):
    return {
        "SPDXID": f"SPDXRef-File-{path.name}",
        "fileName": f"./lib/{path.name}",
        "fileTypes": ["BINARY"],
        "checksums": checksums(path, "SHA1", "SHA256"),
        "licenseInfoInFiles": ["NOASSERTION"],
        **LICENCE,
    }


def related(one, kind, other):
    return {"spdxElementId": one, "relationshipType": kind, "relatedSpdxElement": other}


def document(version, seconds, sources, kit, libraries, paths):
    packages = [of_package(path, version, sources) for path in paths]
    files = [of_file(libraries / name) for name in ("libbucket.a", "libbucket.so")]
    names = [package["SPDXID"] for package in packages]
    relations = [related("SPDXRef-DOCUMENT", "DESCRIBES", name) for name in names]
    relations += [related(file["SPDXID"], "VARIANT_OF", files[0]["SPDXID"]) for file in files[1:]]
    if kit:
        relations += [related("SPDXRef-Kit", "BUILD_TOOL_OF", name) for name in names]
    sums = "".join(package["checksums"][0]["checksumValue"] for package in packages)
    return {
        "spdxVersion": "SPDX-2.3",
        "dataLicense": "CC0-1.0",
        "SPDXID": "SPDXRef-DOCUMENT",
        "name": f"bucket-{version}",
        "documentNamespace": f"https://spdx.org/spdxdocs/bucket-{version}-{hashlib.sha256(sums.encode()).hexdigest()}",
        "creationInfo": {
            "created": datetime.datetime.fromtimestamp(seconds, datetime.timezone.utc).strftime("%Y-%m-%dT%H:%M:%SZ"),
            "creators": [f"Tool: bindings/release-{version}"],
        },
        "packages": packages + ([of_kit(kit)] if kit else []),
        "files": files,
        "relationships": relations,
    }


def main(version, seconds, sources, kit, libraries, *packages):
    paths = sorted(map(pathlib.Path, packages))
    made = document(version, int(seconds), sources, kit, pathlib.Path(libraries), paths)
    print(json.dumps(made, indent=2))


if __name__ == "__main__":
    main(*sys.argv[1:])
