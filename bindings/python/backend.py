"""Makes the wheel of this folder with Python's own library alone, so that `pip install ./bindings/python` fetches nothing."""
import base64
import hashlib
import pathlib
import platform
import zipfile

NAME, VERSION = "nipamast", "0.1.0"
TAG = f"py3-none-linux_{platform.machine()}"
HERE = pathlib.Path(__file__).resolve().parent
METADATA = f"""Metadata-Version: 2.1
Name: {NAME}
Version: {VERSION}
Summary: A store of rows in one file, whose commits survive any stop
Requires-Python: >=3.8
"""
WHEEL = f"""Wheel-Version: 1.0
Generator: {NAME}
Root-Is-Purelib: false
Tag: {TAG}
"""


def _sum(data):
    return "sha256=" + base64.urlsafe_b64encode(hashlib.sha256(data).digest()).rstrip(b"=").decode()


def build_wheel(wheel_directory, config_settings=None, metadata_directory=None):
    if not (HERE / NAME / "libnipamast.so").exists():
        raise SystemExit("nipamast/libnipamast.so isn't there: bindings/build makes it")
    name, info, records = f"{NAME}-{VERSION}-{TAG}.whl", f"{NAME}-{VERSION}.dist-info", []
    parts = {f"{NAME}/{path.name}": path.read_bytes() for path in sorted((HERE / NAME).iterdir()) if path.suffix in (".py", ".so", ".typed")}
    parts[f"{info}/METADATA"] = METADATA.encode()
    parts[f"{info}/WHEEL"] = WHEEL.encode()
    with zipfile.ZipFile(pathlib.Path(wheel_directory) / name, "w", zipfile.ZIP_DEFLATED) as wheel:
        for path, data in parts.items():
            wheel.writestr(path, data)
            records.append(f"{path},{_sum(data)},{len(data)}")
        wheel.writestr(f"{info}/RECORD", "\n".join([*records, f"{info}/RECORD,,", ""]))
    return name
