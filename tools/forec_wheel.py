"""Makes the wheel of forec_io and plant for pip, from the standard library alone, so that an install needs no network."""
import base64
import glob
import hashlib
import os
import zipfile

HERE = os.path.dirname(os.path.realpath(__file__))
TAG = "py3-none-any"


def version():
    with open(os.path.join(HERE, "..", "VERSION"), encoding="utf-8") as file:
        return file.read().strip()


def files():
    """What the wheel holds: paths in it, and the bytes."""
    for path in [os.path.join(HERE, "plant.py"), *sorted(glob.glob(os.path.join(HERE, "forec_io", "*.py")))]:
        with open(path, "rb") as file:
            yield os.path.relpath(path, HERE), file.read()
    info = f"forec_io-{version()}.dist-info"
    yield f"{info}/METADATA", f"Metadata-Version: 2.1\nName: forec-io\nVersion: {version()}\nRequires-Python: >=3.11\n".encode()
    yield f"{info}/WHEEL", f"Wheel-Version: 1.0\nGenerator: forec\nRoot-Is-Purelib: true\nTag: {TAG}\n".encode()
    yield f"{info}/entry_points.txt", b"[console_scripts]\nforec-io = forec_io.__main__:main\n"


def digest(content):
    return base64.urlsafe_b64encode(hashlib.sha256(content).digest()).rstrip(b"=").decode()


def build_wheel(wheel_directory, config_settings=None, metadata_directory=None):
    """What pip calls: it names the file that was made."""
    name = f"forec_io-{version()}-{TAG}.whl"
    record = f"forec_io-{version()}.dist-info/RECORD"
    with zipfile.ZipFile(os.path.join(wheel_directory, name), "w", zipfile.ZIP_DEFLATED) as wheel:
        lines = []
        for path, content in files():
            wheel.writestr(path, content)
            lines.append(f"{path},sha256={digest(content)},{len(content)}\n")
        wheel.writestr(record, "".join(lines) + f"{record},,\n")
    return name
