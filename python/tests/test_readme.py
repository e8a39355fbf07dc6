"""The examples of the README that ask a server. (The others are doctests.)"""
import asyncio
import re
import textwrap
from pathlib import Path
from typing import Any, Callable, Dict

import ddserve
from conftest import Serving

BLOCKS = [it for it in re.findall(r"```python\n(.*?)```", (Path(__file__).parents[1] / "README.md").read_text(), re.DOTALL) if ">>>" not in it]


def test_examples_that_ask_a_server(serving: Callable[..., Serving], capsys: Any) -> None:
    deals = ["N:A... K... Q... J...", "N:2... A... 3... 4..."]
    names: Dict[str, Any] = {"asyncio": asyncio, "ddserve": ddserve, "deal": deals[0], "deals": deals}
    port = serving().port
    assert len(BLOCKS) == 2
    for block in BLOCKS:
        code = block.replace("4100", str(port))
        exec(f"async def example():\n{textwrap.indent(code, '    ')}    return locals()\n", names)
        names.update(asyncio.run(names["example"]()))
    assert "\nN    1   1   1   1   1\n" in capsys.readouterr().out
    assert [table["S", "N"] for table in names["tables"]] == [1, 0]


def test_the_version_is_that_of_the_changelog() -> None:
    newest = re.search(r"^## (.*)$", (Path(__file__).parents[2] / "CHANGELOG.md").read_text(), re.MULTILINE)
    assert newest and newest.group(1) == ddserve.__version__
