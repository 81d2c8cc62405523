"""The page in headless Chromium, opened as a file and from a server, and the module in a page. The hashes are compared
with those of the Python package."""
import contextlib
import functools
import http.server
import json
import random
import re
import shutil
import subprocess
import threading

import pytest
from conftest import DIST, block_of

sketch_hash = pytest.importorskip("sketch_hash")
pytest.importorskip("selenium")
from selenium import webdriver
from selenium.webdriver.chrome.service import Service
from selenium.webdriver.common.by import By
from selenium.webdriver.common.keys import Keys
from selenium.webdriver.support.ui import WebDriverWait

TIMEOUT = 300  # seconds, on a busy machine
FOX = b"The quick brown fox jumps over the lazy dog"
FOX_HASHES = ("0b242d361fda71bc", "e34bbc7bbc071b6c7a433ca9c49a9347", "6c1b07bc7bbc4be347939ac4a93c437a")
NONE = ("", "", "")


def hashes(data, seed=0):
    in_memory_order = sketch_hash.murmur3_x64_128_bytes(data, seed).hex()
    return sketch_hash.xxh64_hexdigest(data, seed), sketch_hash.murmur3_x64_128_hexdigest(data, seed), in_memory_order


pytestmark = pytest.mark.xdist_group("browser")  # one worker of pytest has the browser


class Quiet(http.server.SimpleHTTPRequestHandler):
    def log_message(self, *_):
        pass


@pytest.fixture(scope="module")
def server_of():
    """Serves a folder until the end, and returns its URL."""
    with contextlib.ExitStack() as stack:

        def serve(folder, handler=Quiet):
            handler = functools.partial(handler, directory=folder)
            server = stack.enter_context(http.server.ThreadingHTTPServer(("127.0.0.1", 0), handler))
            threading.Thread(target=server.serve_forever, daemon=True).start()
            stack.callback(server.shutdown)
            return f"http://127.0.0.1:{server.server_port}"

        yield serve


@pytest.fixture(scope="module")
def server(server_of):
    return server_of(DIST / "wasm")


@pytest.fixture(scope="module")
def chromium(need):
    need("chromium", "chromedriver")
    options = webdriver.ChromeOptions()
    for argument in ("--headless=new", "--no-sandbox", "--disable-gpu", "--disable-dev-shm-usage"):
        options.add_argument(argument)
    options.set_capability("goog:loggingPrefs", {"browser": "ALL"})
    # Without its path, newer versions of Selenium ask the network for a driver.
    with webdriver.Chrome(options=options, service=Service(shutil.which("chromedriver"))) as driver:
        yield driver


class Page:
    def __init__(self, chromium, url, folder):
        chromium.get(url)
        self.chromium, self.folder, self.run = chromium, folder, chromium.execute_script

    def one(self, selector):
        return self.chromium.find_element(By.CSS_SELECTOR, selector)

    def all(self, selector):
        return self.chromium.find_elements(By.CSS_SELECTOR, selector)

    def in_card(self, name, selector):
        return self.one(f'article[data-name="{name}"] {selector}')

    def choose(self, **contents):
        """Writes files, and chooses them. A number is the size of a sparse file, which takes no space."""
        for name, content in contents.items():
            with open(self.folder / name, "wb") as file:
                file.truncate(content) if isinstance(content, int) else file.write(content)
        self.one("input#files").send_keys("\n".join(str(self.folder / name) for name in contents))

    def type(self, field, text):
        typed = "arguments[0].value = arguments[1]; arguments[0].dispatchEvent(new Event('input'))"
        self.run(typed, self.one(f"#{field}"), text)

    def hashes(self, name):
        return tuple(self.in_card(name, f"code.{kind}").text for kind in ("xxh64", "murmur3", "memory"))

    def wait(self, condition):
        WebDriverWait(self.chromium, TIMEOUT, 0.02).until(lambda _: condition())

    def wait_for(self, name, status):
        self.wait(lambda: status in self.in_card(name, ".status").text)

    def wait_for_hashes(self, name, expected):
        self.wait(lambda: self.hashes(name) == expected)

    def press(self, name, button):
        """By a key, since a card moves while files are read."""
        self.in_card(name, button).send_keys(Keys.ENTER)


@pytest.fixture(params=["file", "server"])
def page(request, chromium, server, tmp_path):
    chromium.get_log("browser")  # drops messages of earlier tests
    url = (DIST / "wasm/index.html").as_uri() if request.param == "file" else f"{server}/index.html"
    yield Page(chromium, url, tmp_path)
    assert [line for line in chromium.get_log("browser") if line["level"] == "SEVERE"] == []


ENDLESS = 1 << 36  # bytes, which take minutes to hash


def test_version_and_contracts_are_shown(page):
    version = json.loads((DIST / "wasm/package.json").read_text())["version"]
    page.wait(lambda: page.one("#version").text == version)
    page.one("summary").click()
    for call in ("xxh64", "xxh64_update", "murmur3_x64_128_digest"):
        assert f"fn sketch_{call}(" in page.one("pre").text


@pytest.mark.parametrize("length", [0, 43, (64 << 20) + 5])
def test_a_file_has_three_hashes_and_a_size(length, page):
    data = FOX if length == len(FOX) else random.Random(1).randbytes(length)
    page.choose(file=data)
    page.wait_for_hashes("file", hashes(data))
    assert page.in_card("file", ".size").text == ("64.0 MiB" if length > 43 else f"{length} bytes")
    assert not page.in_card("file", "progress").is_displayed()
    assert ("could not be read" in page.in_card("file", ".status").text) == (length == 0)


def test_many_files_are_hashed(page):
    """More than are read at the same time."""
    contents = {f"file{n}": b"%d" % n for n in range(9)}
    page.choose(**contents)
    for name, data in contents.items():
        page.wait_for_hashes(name, hashes(data))


def test_a_file_may_have_more_than_4_gibibytes(chromium, tmp_path):
    """It is not zero at its ends and its middle. Its hashes were computed by other programs."""
    page = Page(chromium, (DIST / "wasm/index.html").as_uri(), tmp_path)
    page.type("seed", str(2**64 - 1))
    with open(tmp_path / "large", "wb") as file:
        for at, byte in ((0, b"\1"), (1 << 31, b"\2"), ((1 << 32) - 1, b"\3"), ((1 << 32) + 36, b"\4")):
            file.seek(at)
            file.write(byte)
    page.one("input#files").send_keys(str(tmp_path / "large"))
    expected = ("e7c41fccd784e763", "7e72d1a8272e0f4407c583ed175539bf")
    WebDriverWait(chromium, 10 * TIMEOUT, 0.02).until(lambda _: page.hashes("large")[:2] == expected)


@pytest.mark.parametrize("text, seed", [(str(2**64 - 1), 2**64 - 1), ("0x10", 16), (" 16\t", 16), ("0XaB", 171)])
def test_a_new_seed_gives_new_hashes(text, seed, page):
    page.choose(fox=FOX)
    page.wait_for_hashes("fox", FOX_HASHES)
    page.type("seed", text)
    page.wait_for_hashes("fox", hashes(FOX, seed))
    page.wait_for_hashes("Text", hashes(b"", seed))


@pytest.mark.parametrize("text", [str(2**64), "-1", "1.5", "many", ""])
def test_a_wrong_seed_gives_no_hash_and_no_bar(text, page):
    page.choose(fox=FOX)
    page.wait_for_hashes("fox", FOX_HASHES)
    page.type("seed", text)
    page.wait(lambda: "0 to 18446744073709551615" in page.one("#seed-fault").text)
    assert page.hashes("fox") == page.hashes("Text") == NONE
    assert page.one("#seed").get_attribute("aria-invalid") == "true"
    assert not any(page.in_card("fox", part).is_displayed() for part in ("progress", "dl button", ".stop"))


@pytest.mark.parametrize("text", [
    "e\u0301", "\ufb01 \u212b", " \ta\u00a0\n\n", "\ufeffa\u200b", "x" * (1 << 21),
], ids=["accent", "forms", "blanks", "marks", "long"])
def test_a_text_is_its_utf_8_without_a_change(text, page):
    page.wait_for_hashes("Text", hashes(b""))
    page.type("text", text)
    page.wait_for_hashes("Text", hashes(text.encode()))


@pytest.mark.parametrize("expected", [*FOX_HASHES, f" {FOX_HASHES[0].upper()}\n"])
def test_an_expected_hash_is_found(expected, page):
    page.type("expected", expected)
    assert page.one("#verdict").text == "No hash on this page is equal."
    page.choose(fox=FOX)
    page.wait(lambda: page.one("#verdict").text == "Equal: fox")
    assert [code.text for code in page.all("code.good")] == [expected.strip().lower()]
    page.type("expected", "")
    assert page.one("#verdict").text == "" and page.all("code.good") == []


@pytest.mark.parametrize("clipboard, shown", [
    ("navigator.clipboard.writeText = async (text) => { window.copied = text; }", "Copied"),
    ("navigator.clipboard.writeText = () => Promise.reject(); document.execCommand = () => false", "Selected"),
], ids=["with a clipboard", "without a clipboard"])
def test_each_hash_is_copied(clipboard, shown, page):
    page.run(clipboard)
    page.choose(fox=FOX)
    page.wait_for_hashes("fox", FOX_HASHES)
    for button, expected in zip(page.all("article[data-name=fox] dl button"), FOX_HASHES):
        button.click()
        page.wait(lambda: button.text == shown)
        assert page.run("return window.copied || getSelection().toString().trim()") == expected


def test_files_are_dropped(page):
    page.run(
        """
        const dropped = new DataTransfer();
        for (const name of ['first', 'second']) dropped.items.add(new File([name], name));
        for (const type of ['dragover', 'drop']) {
            const event = new DragEvent(type, { dataTransfer: dropped, bubbles: true, cancelable: true });
            if (document.body.dispatchEvent(event)) throw new Error(`${type}: the browser would open the file`);
        }
        """
    )
    for name in ("first", "second"):
        page.wait_for_hashes(name, hashes(name.encode()))


def test_a_file_that_changes_has_no_hash(page):
    page.choose(endless=ENDLESS)
    page.wait_for("endless", "%")
    with open(page.folder / "endless", "ab") as file:
        file.write(b"more")
    page.wait_for("endless", "cannot be read: it has changed, or may not be read")
    assert page.hashes("endless") == NONE


def test_a_stopped_file_stays_stopped(page):
    page.choose(endless=ENDLESS)
    page.wait_for("endless", "%")
    page.press("endless", "button.stop")
    page.wait_for("endless", "stopped")
    button = page.chromium.switch_to.active_element
    assert (button.text, button.get_attribute("aria-label")) == ("Continue", "Continue endless")
    page.type("seed", "7")
    page.wait_for_hashes("Text", hashes(b"", 7))
    assert page.in_card("endless", ".status").text == "stopped" and page.hashes("endless") == NONE


@pytest.mark.parametrize("seed", [0, 7])
def test_a_stopped_file_goes_on(seed, page):
    """Where it was, but with another seed from its beginning. A part that is left out, or hashed again, gives other hashes."""
    part = random.Random(2).randbytes(1 << 20)
    with open(page.folder / "long", "wb") as file:
        file.writelines([part] * 1024)
    xxh64, murmur = sketch_hash.xxh64(seed=seed), sketch_hash.murmur3_x64_128(seed=seed)
    for _ in range(1024):
        xxh64.update(part)
        murmur.update(part)
    page.one("input#files").send_keys(str(page.folder / "long"))
    for _ in range(2):
        page.wait_for("long", "%")
        page.press("long", "button.stop")
        page.wait_for("long", "stopped")
        page.type("seed", str(seed))
        page.press("long", "button.stop")
    page.wait_for_hashes("long", (xxh64.hexdigest(), murmur.hexdigest(), murmur.digest_bytes().hex()))
    assert not page.in_card("long", ".stop").is_displayed()


def test_both_lines_of_a_text_are_seen(page):
    page.one("#text").send_keys("first\nsecond")
    assert page.run("const { scrollTop, scrollHeight, clientHeight } = arguments[0];"
                    "return [scrollTop, scrollHeight <= clientHeight]", page.one("#text")) == [0, True]


def test_a_policy_that_forbids_the_script_is_named(chromium, server_of):
    class Strict(Quiet):
        def end_headers(self):
            self.send_header("Content-Security-Policy", "script-src 'self'")
            super().end_headers()

    chromium.get(f"{server_of(DIST / 'wasm', Strict)}/index.html")
    message = chromium.find_element(By.ID, "no-script")
    WebDriverWait(chromium, TIMEOUT).until(lambda _: message.is_displayed())
    assert "policy (script-src) forbids" in " ".join(message.text.split())
    chromium.get_log("browser")


def test_a_removed_file_is_gone(page):
    page.choose(endless=ENDLESS)
    page.wait_for("endless", "%")
    page.press("endless", "button.remove")
    page.choose(fox=FOX)
    page.wait_for_hashes("fox", FOX_HASHES)
    assert page.all("article[data-name=endless]") == []


def test_a_name_that_looks_like_html_is_a_text(page):
    page.choose(**{"<i>fox": FOX})
    page.wait_for_hashes("<i>fox", FOX_HASHES)
    assert page.in_card("<i>fox", "h3").text == "<i>fox"


def test_the_page_sends_nothing(page):
    """Its policy forbids requests, and it was loaded with none."""
    page.wait_for_hashes("Text", hashes(b""))
    loaded = page.run("return performance.getEntriesByType('resource').map((entry) => entry.name)")
    assert [name for name in loaded if not name.startswith("blob:")] == []
    fetch = "fetch(location.href).then(() => arguments[0]('sent'), () => arguments[0]('forbidden'))"
    assert page.chromium.execute_async_script(fetch) == "forbidden"
    policy = page.one("meta[http-equiv=Content-Security-Policy]").get_attribute("content").split(";")
    assert {"default-src 'none'", "base-uri 'none'", "form-action 'none'"} <= {rule.strip() for rule in policy}
    page.chromium.get_log("browser")  # drops the message about the request


def changed_page(chromium, tmp_path, old, new):
    text = (DIST / "wasm/index.html").read_text()
    assert text.count(old) == 1
    (tmp_path / "page.html").write_text(text.replace(old, new))
    return Page(chromium, (tmp_path / "page.html").as_uri(), tmp_path)


def test_an_engine_without_webassembly_is_an_error(chromium, tmp_path):
    """Files before and after the message have no hash."""
    page = changed_page(chromium, tmp_path, "if (!globalThis.WebAssembly)", "if (true)")
    page.choose(early=FOX)
    page.wait(lambda: "this engine has no WebAssembly" in page.one("#unable").text)
    page.choose(late=FOX)
    for name in ("early", "late"):
        page.wait_for(name, "cannot be hashed here")


def test_a_worker_that_does_not_start_is_an_error(chromium, tmp_path):
    page = changed_page(chromium, tmp_path, "onmessage = async", "throw new Error('no start'); onmessage = async")
    page.wait(lambda: "The worker did not start" in page.one("#unable").text)
    chromium.get_log("browser")


def test_a_page_may_import_the_module(chromium, server):
    chromium.get(f"{server}/sketch_hash.mjs")
    script = """
        const run = ({ xxh64Hex, murmur128Hex, BloomFilter }) => {
            const fox = new TextEncoder().encode(arguments[0]);
            const filter = BloomFilter.forKeys(1000, 100).add(fox);
            return [xxh64Hex(fox), murmur128Hex(fox), filter.has(fox), filter.has('cow')];
        };
        import('/sketch_hash.mjs').then(({ load }) => load()).then(run).catch(String).then(arguments[1]);
    """
    assert chromium.execute_async_script(script, FOX.decode()) == [*FOX_HASHES[:2], True, False]


def test_a_bundle_hashes_the_files_that_a_user_chooses(chromium, need, server_of, tmp_path):
    """By the program, the command and the elements of the package's page."""
    need("esbuild")
    (tmp_path / "upload.js").write_text(block_of("dist/wasm/README.md", "js upload"))
    shutil.copytree(DIST / "wasm", tmp_path / "node_modules/sketch-hash")
    command = re.search(r"^    (esbuild .*)", (DIST / "wasm/README.md").read_text(), re.M)[1]
    subprocess.run(command.split(), cwd=tmp_path, check=True, capture_output=True)
    (tmp_path / "public/index.html").write_text(block_of("dist/wasm/README.md", "html"))
    chosen = {"fox": FOX, "long": bytes(9 << 20)}
    chromium.get(server_of(tmp_path / "public"))
    for name, data in chosen.items():
        (tmp_path / name).write_bytes(data)
    chromium.find_element(By.CSS_SELECTOR, "input").send_keys("\n".join(str(tmp_path / name) for name in chosen))
    expected = [f"{name} {sketch_hash.xxh64_hexdigest(data)}" for name, data in chosen.items()]
    output = chromium.find_element(By.CSS_SELECTOR, "pre")
    WebDriverWait(chromium, TIMEOUT).until(lambda _: output.text.splitlines() == expected)
