"""Builds what `pip install` of this folder wants (PEP 517) with nothing but Python, so that no network is needed."""

import base64
import hashlib
import os
import tomllib
import zipfile

PACKAGE = "gridfs_client"


def metadata(project):
    """The text that says what the package is."""
    extras = project["optional-dependencies"].items()
    lines = [
        "Metadata-Version: 2.1",
        f"Name: {project['name']}",
        f"Version: {project['version']}",
        f"Summary: {project['description']}",
        "License: MIT",
        "License-File: LICENSE",
        f"Requires-Python: {project['requires-python']}",
        *(f"Provides-Extra: {extra}" for extra, _ in extras),
        *(f'Requires-Dist: {each}; extra == "{extra}"' for extra, needed in extras for each in needed),
    ]
    return "".join(f"{line}\n" for line in lines)


def contents(project, info):
    """Each file of the wheel, with its bytes."""
    for name in sorted(os.listdir(PACKAGE)):
        if name.endswith((".py", ".typed")):
            with open(os.path.join(PACKAGE, name), "rb") as file:
                yield f"{PACKAGE}/{name}", file.read()
    with open("LICENSE", "rb") as file:
        yield f"{info}/LICENSE", file.read()
    scripts = "".join(f"{name} = {call}\n" for name, call in project["scripts"].items())
    yield f"{info}/METADATA", metadata(project).encode()
    yield f"{info}/entry_points.txt", f"[console_scripts]\n{scripts}".encode()
    yield f"{info}/WHEEL", b"Wheel-Version: 1.0\nGenerator: gridfs\nRoot-Is-Purelib: true\nTag: py3-none-any\n"


def build_wheel(wheel_directory, config_settings=None, metadata_directory=None):
    with open("pyproject.toml", "rb") as file:
        project = tomllib.load(file)["project"]
    stem = f"{PACKAGE}-{project['version']}"
    info, record = f"{stem}.dist-info", ""
    name = f"{stem}-py3-none-any.whl"
    with zipfile.ZipFile(os.path.join(wheel_directory, name), "w", zipfile.ZIP_DEFLATED) as wheel:
        for path, content in contents(project, info):
            wheel.writestr(path, content)
            digest = base64.urlsafe_b64encode(hashlib.sha256(content).digest()).decode().rstrip("=")
            record += f"{path},sha256={digest},{len(content)}\n"
        wheel.writestr(f"{info}/RECORD", f"{record}{info}/RECORD,,\n")
    return name
