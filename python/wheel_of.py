"""Makes the wheel of this package for pip, by the standard library alone: it needs no compiler, no network and no other
package."""

import base64
import hashlib
import pathlib
import re
import zipfile

TOP = pathlib.Path(__file__).resolve().parent


def project(field):
    """A text of the table [project] of pyproject.toml."""
    return re.search(rf'^{field} = "(.*)"$', (TOP / "pyproject.toml").read_text().partition("[project]")[2], re.M)[1]


def get_requires_for_build_wheel(config_settings=None):
    return []


def build_wheel(wheel_directory, config_settings=None, metadata_directory=None):
    name, version = project("name"), project("version")
    info = f"{name}-{version}.dist-info"
    files = {str(path.relative_to(TOP)): path.read_bytes() for path in sorted((TOP / name).iterdir()) if path.is_file()}
    about = {"Metadata-Version": "2.1", "Name": name, "Version": version, "Summary": project("description")}
    about["Requires-Python"] = project("requires-python")
    files[f"{info}/METADATA"] = "".join(f"{key}: {value}\n" for key, value in about.items()).encode()
    files[f"{info}/WHEEL"] = b"Wheel-Version: 1.0\nGenerator: postmig\nRoot-Is-Purelib: true\nTag: py3-none-any\n"
    sums = {
        path: base64.urlsafe_b64encode(hashlib.sha256(text).digest()).rstrip(b"=").decode()
        for path, text in files.items()
    }
    record = "".join(f"{path},sha256={sums[path]},{len(text)}\n" for path, text in files.items())
    files[f"{info}/RECORD"] = f"{record}{info}/RECORD,,\n".encode()
    wheel = f"{name}-{version}-py3-none-any.whl"
    with zipfile.ZipFile(pathlib.Path(wheel_directory) / wheel, "w") as made:
        for path, text in files.items():
            made.writestr(path, text)
    return wheel
