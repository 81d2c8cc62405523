"""The crates' own tests, and what dist/ has of them, which is, byte for byte, what the proved text gives."""
import filecmp
import re
import subprocess

import pytest
from conftest import DIST, PROVED, ROOT, version_of

pytestmark = pytest.mark.xdist_group("rt")  # so that dist/ is built once for all

if not PROVED:  # else rt ci has run them, as it has proved them
    TESTED = sorted({path.relative_to(ROOT / "crates").parts[0] for path in ROOT.glob("crates/*/src/**/*.rt")
                     if "#[cfg(test)]" in path.read_text()})

    @pytest.mark.parametrize("crate", TESTED)
    def test_crate(crate, need):
        need("rt")
        done = subprocess.run(["rt", "try", "--test"], cwd=ROOT / "crates" / crate, stdout=subprocess.PIPE,
                              stderr=subprocess.STDOUT, text=True)
        passed = re.search(r"^test result: ok\. [1-9]\d* passed; 0 failed; 0 ignored", done.stdout, re.M)
        assert done.returncode == 0 and passed, done.stdout


def test_dist_is_what_the_proved_text_gives(need, proved, tmp_path):
    """But for the module for JavaScript, and the page around it, where clang is not the one that made them."""
    need("rt", "clang", "wasm-ld", "clang-format")
    subprocess.run([ROOT / "tools/make_dist", tmp_path / "a folder"], check=True)
    names = [str(path.relative_to(tmp_path / "a folder")) for path in (tmp_path / "a folder").rglob("*") if not path.is_dir()]
    assert {"sketch_hash.c", "wasm/sketch_hash.wasm"} <= {*names}
    if version_of("clang")[0] != 14:
        names = [name for name in names if name not in ("wasm/sketch_hash.wasm", "wasm/index.html")]
    assert filecmp.cmpfiles(DIST, tmp_path / "a folder", names, shallow=False) == (names, [], [])


def test_proved_names_the_sum_of_this_text():
    page = (DIST / "PROVED").read_text()
    command = "".join(re.findall(r"^    (.*\n)", page, re.M))
    of_text = subprocess.check_output(["bash", "-c", command], cwd=ROOT, text=True).split()[0]
    assert of_text == re.search(r"^text +(\w+)$", page, re.M)[1], "write dist/ anew: tools/make_dist"
    for name in DIST.glob("*.c"):
        if "printed from proved text" in name.read_text():
            assert of_text in name.read_text(), "write dist/ anew: tools/make_dist"
