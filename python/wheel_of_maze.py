"""What `pip install .` asks for here (PEP 517): a wheel of the one module, put together without any other package, so that it works without a network."""

import base64
import hashlib
import os
import re
import zipfile

HERE = os.path.dirname(os.path.abspath(__file__))


def build_wheel(wheel_directory, config_settings=None, metadata_directory=None):
    with open(os.path.join(HERE, "maze.py"), encoding="utf-8") as file:
        module = file.read()
    version = re.search(r'^__version__ = "(.*)"', module, re.M)[1]
    info = f"maze-{version}.dist-info"
    files = {
        "maze.py": module,
        f"{info}/METADATA": f"Metadata-Version: 2.1\nName: maze\nVersion: {version}\nSummary: The maze router from Python, over its shared library\nRequires-Python: >=3.8\n",
        f"{info}/WHEEL": "Wheel-Version: 1.0\nGenerator: wheel_of_maze\nRoot-Is-Purelib: true\nTag: py3-none-any\n",
    }
    record = ""
    for name, content in files.items():
        digest = base64.urlsafe_b64encode(hashlib.sha256(content.encode()).digest()).rstrip(b"=").decode()
        record += f"{name},sha256={digest},{len(content.encode())}\n"
    files[f"{info}/RECORD"] = f"{record}{info}/RECORD,,\n"
    wheel = f"maze-{version}-py3-none-any.whl"
    with zipfile.ZipFile(os.path.join(wheel_directory, wheel), "w", zipfile.ZIP_DEFLATED) as archive:
        for name, content in files.items():
            archive.writestr(name, content)
    return wheel
