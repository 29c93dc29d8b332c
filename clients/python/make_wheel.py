"""What `pip install clients/python` builds: a wheel of the two modules. It needs nothing but the standard library, and
no network."""

import base64
import hashlib
import os
import zipfile

HERE = os.path.dirname(os.path.abspath(__file__))
MODULES = "recall.py", "recall_durable.py"


def said(key):
    """A value of pyproject.toml. (Its own module reads it from Python 3.11 on alone.)"""
    with open(os.path.join(HERE, "pyproject.toml"), encoding="utf-8") as page:
        return next(line.split('"')[1] for line in page if line.startswith(f"{key} ="))


def record(name, content):
    digest = base64.urlsafe_b64encode(hashlib.sha256(content).digest()).rstrip(b"=").decode()
    return f"{name},sha256={digest},{len(content)}\n"


def build_wheel(wheel_directory, config_settings=None, metadata_directory=None):
    """Writes the wheel, and gives its name."""
    name = f"{said('name').replace('-', '_')}-{said('version')}"
    meta = [("Metadata-Version", "2.1")] + [(key, said(key.lower())) for key in ("Name", "Version")]
    meta += [("Summary", said("description")), ("Requires-Python", said("requires-python"))]
    files = {
        f"{name}.dist-info/METADATA": "".join(f"{key}: {value}\n" for key, value in meta).encode(),
        f"{name}.dist-info/WHEEL": b"Wheel-Version: 1.0\nGenerator: make_wheel\nRoot-Is-Purelib: true\n"
        b"Tag: py3-none-any\n",
    }
    for module in MODULES:
        with open(os.path.join(HERE, module), "rb") as file:
            files[module] = file.read()
    index = f"{name}.dist-info/RECORD"
    files[index] = ("".join(record(*each) for each in files.items()) + f"{index},,\n").encode()
    with zipfile.ZipFile(os.path.join(wheel_directory, f"{name}-py3-none-any.whl"), "w", zipfile.ZIP_DEFLATED) as wheel:
        for each, content in files.items():
            wheel.writestr(each, content)
    return f"{name}-py3-none-any.whl"
