"""The build backend that pyproject.toml names (PEP 517). It makes a wheel of the module, with the library where jsgen/libjsgen.so is
there, and needs no other package.
"""
import base64
import hashlib
import re
import sysconfig
import zipfile
from pathlib import Path

_HERE = Path(__file__).resolve().parent
_LIBRARY = _HERE / "jsgen/libjsgen.so"
_LICENCE = _HERE / "../../LICENSE"


def build_wheel(wheel_directory, config_settings=None, metadata_directory=None):
    """Writes the wheel into the folder, and gives its name."""
    project = _project()
    platform = re.sub("[-.]", "_", sysconfig.get_platform()) if _LIBRARY.exists() else "any"
    tag = f"py3-none-{platform}"
    release = f"{project['name']}-{project['version']}"
    files = _files(f"{release}.dist-info", project, tag)
    name = f"{release}-{tag}.whl"
    with zipfile.ZipFile(Path(wheel_directory, name), "w", zipfile.ZIP_DEFLATED) as wheel:
        for path, content in files.items():
            _write(wheel, path, content)
    return name


# The values of [project] that are strings.
def _project():
    text = (_HERE / "pyproject.toml").read_text(encoding="utf-8").partition("[project]")[2]
    return dict(re.findall(r'^([\w-]+) = "(.*)"$', text, re.MULTILINE))


# The contents of the wheel by their paths; that of RECORD is the last.
def _files(info, project, tag):
    module = [path for path in (_HERE / "jsgen/__init__.py", _HERE / "jsgen/py.typed", _LIBRARY) if path.exists()]
    files = {f"jsgen/{path.name}": path.read_bytes() for path in module}
    if _LICENCE.exists():
        files[f"{info}/LICENSE"] = _LICENCE.read_bytes()
    files[f"{info}/METADATA"] = _metadata(project).encode("utf-8")
    pure = "false" if _LIBRARY.exists() else "true"
    files[f"{info}/WHEEL"] = f"Wheel-Version: 1.0\nGenerator: jsgen\nRoot-Is-Purelib: {pure}\nTag: {tag}\n".encode("ascii")
    record = [f"{path},sha256={_sum(content)},{len(content)}" for path, content in files.items()]
    files[f"{info}/RECORD"] = "\n".join([*record, f"{info}/RECORD,,", ""]).encode("ascii")
    return files


def _metadata(project):
    fields = {
        "Metadata-Version": "2.1",
        "Name": project["name"],
        "Version": project["version"],
        "Summary": project["description"],
        "License": "MIT",
        "Requires-Python": project["requires-python"],
        "Description-Content-Type": "text/markdown",
    }
    head = "".join(f"{name}: {value}\n" for name, value in fields.items())
    return head + "\n" + (_HERE / project["readme"]).read_text(encoding="utf-8")


def _sum(content):
    return base64.urlsafe_b64encode(hashlib.sha256(content).digest()).rstrip(b"=").decode("ascii")


# With the one time that each file of a wheel may have, so that the same files make the same wheel.
def _write(wheel, path, content):
    entry = zipfile.ZipInfo(path, (1980, 1, 1, 0, 0, 0))
    entry.compress_type = zipfile.ZIP_DEFLATED
    entry.external_attr = (0o100755 if path.endswith(".so") else 0o100644) << 16
    wheel.writestr(entry, content)
