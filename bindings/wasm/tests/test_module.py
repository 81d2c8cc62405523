"""The module under Node, its types by tsc, and its package by npm."""
import pathlib
import re
import shutil
import subprocess

import pytest
from conftest import DIST, ROOT, block_of, version_of

HERE = pathlib.Path(__file__).resolve().parent


@pytest.mark.parametrize("name", sorted(path.name for path in HERE.glob("*.test.mjs")))
def test_module_works_under_node(name, need):
    need("node 18")
    done = subprocess.run(["node", "--test", HERE / name], capture_output=True, text=True)
    assert done.returncode == 0, done.stdout


@pytest.mark.parametrize("lib, url", [("es2022,dom", "new URL('file:///a')"), ("es2022", "'a'")], ids=["dom", "no dom"])
def test_types_take_what_they_say(lib, url, need, tmp_path):
    """types.mts uses each type, and marks what must not compile. Without lib dom and @types/node there is no class URL."""
    need("tsc")
    (tmp_path / "url.mts").write_text(f"""import {{ load }} from './sketch_hash.mjs';
        load({url});
        // @ts-expect-error: what has an href is no URL
        load({{ href: 'file:///a' }});
    """)
    for file in (DIST / "wasm/sketch_hash.d.mts", HERE / "types.mts"):
        shutil.copy(file, tmp_path)
    args = f"--noEmit --strict --target es2022 --lib {lib} --module nodenext --moduleResolution nodenext types.mts url.mts"
    done = subprocess.run(["tsc", *args.split()], cwd=tmp_path, capture_output=True, text=True)
    assert done.returncode == 0, done.stdout


@pytest.fixture
def project(need, tmp_path):
    """A project that has the package from dist/, as `npm install` copies it."""
    need("node 18", "npm")
    subprocess.run(["npm", "pack", "--silent", "--pack-destination", tmp_path, DIST / "wasm"], check=True)
    folder = tmp_path / "node_modules/sketch-hash"
    folder.mkdir(parents=True)
    (archive,) = tmp_path.glob("*.tgz")
    subprocess.run(["tar", "-xf", archive, "-C", folder, "--strip-components=1"], check=True)
    return tmp_path


def test_the_package_has_its_notice_and_types_for_older_compilers(need, project):
    need("tsc")
    assert (project / "node_modules/sketch-hash/NOTICE").exists()
    (project / "old.mts").write_text("import { load } from 'sketch-hash'; const { version } = await load(); version.length;\n")
    args = "--noEmit --strict --target es2022 --lib es2022,dom --module es2022 --moduleResolution node old.mts"
    if version_of("tsc") >= (6,):  # which calls this way to find modules deprecated
        args += " --ignoreDeprecations 6.0"
    done = subprocess.run(["tsc", *args.split()], cwd=project, capture_output=True, text=True)
    assert done.returncode == 0, done.stdout


def test_program_of_the_page_prints_what_its_comments_say(project):
    program = block_of("dist/wasm/README.md", "js")
    (project / "page.mjs").write_text(program)
    expected = [comment.split(":")[0] for comment in re.findall(r"^console\.log\(.*\); // (.*)$", program, re.M)]
    assert subprocess.check_output(["node", "page.mjs"], cwd=project, text=True).splitlines() == expected


def test_the_module_is_what_the_command_of_the_page_makes(need, tmp_path):
    """The same module by the same compiler; by another one a module with the same calls, which node runs."""
    need("clang", "wasm-ld", "node 18")
    (command,) = re.findall(r"^    (clang --target=wasm32 .*(?:\n        .*)*)", (DIST / "wasm/README.md").read_text(), re.M)
    shutil.copytree(DIST, tmp_path / "dist")
    made = tmp_path / "dist/wasm/sketch_hash.wasm"
    made.unlink()
    subprocess.run(command, shell=True, check=True, cwd=tmp_path / "dist/wasm")
    shipped = (DIST / "wasm/sketch_hash.wasm").read_bytes()
    assert made.read_bytes() == shipped or version_of("clang")[0] != 14
    program = "import { load } from './sketch_hash.mjs'; console.log((await load()).xxh64Hex(new Uint8Array(100)));"
    run = ["node", "--input-type=module", "--eval", program]
    outputs = {subprocess.check_output(run, cwd=folder, text=True) for folder in (DIST / "wasm", tmp_path / "dist/wasm")}
    assert len(outputs) == 1


@pytest.mark.parametrize("bundler", ["esbuild", "webpack"])
def test_a_bundler_makes_a_program_of_the_module(bundler, need, project):
    """For a browser, where it finds no module of Node. The bundle runs in Node: with the module's bytes, and with webpack also
    with the file that this puts beside the bundle."""
    need(bundler)
    (project / "in.mjs").write_text("import { load } from 'sketch-hash'; globalThis.loaded = load;")
    options = {"esbuild": "in.mjs --bundle --format=iife --outfile=out.cjs",
               "webpack": "--mode=production --target=web --entry=./in.mjs --output-path=. --output-filename=out.cjs"}
    done = subprocess.run([bundler, *options[bundler].split()], cwd=project, capture_output=True, text=True)
    assert done.returncode == 0, done.stdout + done.stderr
    module = project / "node_modules/sketch-hash/sketch_hash.wasm"
    program = f"""const src = 'https://localhost/';
        globalThis.document = {{ baseURI: src, currentScript: {{ tagName: 'SCRIPT', src }} }};
        require('./out.cjs');
        const bytes = require('fs').readFileSync('{module}');
        globalThis.fetch = async (url) => {{ console.log(new URL(url).href.startsWith(src)); return new Response(bytes); }};
        const print = ({{ xxh64Hex }}) => console.log(xxh64Hex(new Uint8Array()));
        loaded(bytes).then(print).then(() => '{bundler}' === 'webpack' && loaded().then(print));"""
    printed = subprocess.check_output(["node", "--eval", program], cwd=project, text=True).splitlines()
    assert printed == ["ef46db3751d8e999"] + ["true", "ef46db3751d8e999"] * (bundler == "webpack")


def test_the_page_has_the_module_its_script_and_the_contracts(need, tmp_path):
    need("bash", "linux-x86_64")
    subprocess.run(["bash", ROOT / "tools/make_dist", "--page", tmp_path / "dist"], check=True)
    assert (tmp_path / "dist/wasm/index.html").read_bytes() == (DIST / "wasm/index.html").read_bytes()


def test_the_page_explains_the_definitions_in_its_contracts():
    page = (DIST / "wasm/index.html").read_text()
    legend, contracts = re.search(r"<table>(.*?)</table>\n<pre>(.*?)</pre>", page, re.S).groups()
    specs = "".join(path.read_text() for path in sorted(ROOT.glob("crates/*/specs/*.antt")))
    defined = set(re.findall(r"^(?:abbrev|unfoldable) pub (\w+) :", specs, re.M))
    explained = set(re.findall(r"\w+", "".join(re.findall(r"<th>(.*?)</th>", legend))))
    assert set(re.findall(r"\w+", contracts)) & defined == explained & defined != set()
