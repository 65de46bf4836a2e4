"""Makes the wheel of the tools, for pip: the package, and in it the tools themselves as they are (PEP 517 and 660)."""

import base64
import hashlib
import tomllib
import zipfile
from pathlib import Path

HERE = Path(__file__).resolve().parent


def build_wheel(wheel_directory, config_settings=None, metadata_directory=None):
    project = project_of()
    package = HERE / "speedlight_tools"
    files = {
        path.relative_to(HERE).as_posix(): path.read_bytes()
        for folder in (package, package / "page") for path in sorted(folder.iterdir()) if path.is_file()
    }
    for command in project["scripts"]:
        name = command.removeprefix("speedlight-")
        files[f"speedlight_tools/commands/{name}"] = (HERE / name).read_bytes()
    return write(wheel_directory, project, files)


def build_editable(wheel_directory, config_settings=None, metadata_directory=None):
    return write(wheel_directory, project_of(), {"speedlight_tools.pth": f"{HERE}\n".encode()})


def project_of():
    project = tomllib.loads((HERE / "pyproject.toml").read_text(encoding="utf-8"))["project"]
    return project | {"version": (HERE.parent / "VERSION").read_text(encoding="utf-8").strip()}


def write(folder, project, files):
    """Writes the wheel, a zip with the files, what they are and their sums; its name."""
    stem = f"{project['name'].replace('-', '_')}-{project['version']}"
    extras = "".join(
        f"Provides-Extra: {extra}\n" + "".join(f"Requires-Dist: {needed} ; extra == '{extra}'\n" for needed in names)
        for extra, names in project["optional-dependencies"].items()
    )
    scripts = "".join(f"{name} = {place}\n" for name, place in project["scripts"].items())
    about = {
        "METADATA": f"Metadata-Version: 2.1\nName: {project['name']}\nVersion: {project['version']}\n"
        f"Summary: {project['description']}\nLicense: {project['license']['text']}\nRequires-Python: {project['requires-python']}\n{extras}",
        "WHEEL": "Wheel-Version: 1.0\nGenerator: wheel_of_tools\nRoot-Is-Purelib: true\nTag: py3-none-any\n",
        "entry_points.txt": f"[console_scripts]\n{scripts}",
    }
    files = files | {f"{stem}.dist-info/{name}": text.encode() for name, text in about.items()}
    record = "".join(f"{name},sha256={sum_of(data)},{len(data)}\n" for name, data in files.items())
    files[f"{stem}.dist-info/RECORD"] = f"{record}{stem}.dist-info/RECORD,,\n".encode()
    wheel = f"{stem}-py3-none-any.whl"
    with zipfile.ZipFile(Path(folder, wheel), "w", zipfile.ZIP_DEFLATED) as packed:
        for name, data in files.items():
            packed.writestr(name, data)
    return wheel


def sum_of(data):
    return base64.urlsafe_b64encode(hashlib.sha256(data).digest()).rstrip(b"=").decode()
