"""The package as it is installed, without a network."""
import re
import shutil
import subprocess
import sys
import zipfile
from pathlib import Path

HERE = Path(__file__).resolve().parents[1]


def test_the_wheel_is_built_without_a_network_and_has_the_licence(tmp_path: Path) -> None:
    # A build leaves files beside the sources.
    source = tmp_path / "python"
    shutil.copytree(HERE, source, ignore=shutil.ignore_patterns("tests", "__pycache__", "build", "*.egg-info"))
    words = ["-m", "pip", "wheel", "--quiet", "--disable-pip-version-check", "--no-index", "--no-deps", "--no-build-isolation", "--wheel-dir", str(tmp_path), str(source)]
    subprocess.run([sys.executable, *words], check=True)
    [path] = tmp_path.glob("ddserve-*-py3-none-any.whl")
    with zipfile.ZipFile(path) as wheel:
        texts = {re.sub(r"ddserve-[\d.]+\.dist-info/(licenses/)?", "info/", name): wheel.read(name) for name in wheel.namelist()}
    licence = (HERE.parent / "LICENSE").read_bytes()
    assert texts["info/LICENSE"] == licence == (HERE / "LICENSE").read_bytes()
    modules = {f"ddserve/{path.name}" for path in (HERE / "ddserve").glob("*.py")} | {"ddserve/py.typed"}
    assert {name for name in texts if not name.startswith("info/")} == modules and "ddserve/__main__.py" in modules
