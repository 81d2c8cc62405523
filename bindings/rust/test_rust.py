"""The crate as cargo takes it: its tests, its oldest Rust, the package, and what a library that embeds it exports."""
import json
import os
import pathlib
import re
import shutil
import subprocess

import pytest
from conftest import CARGO_CONFIG, DEBIAN_CRATES, ROOT

pytestmark = pytest.mark.xdist_group("cargo")  # cargo locks the folder that it builds into


@pytest.fixture(autouse=True)
def target(need, tmp_path_factory, monkeypatch):
    """The folder that all tests build into, outside of the repository."""
    crates = [next(DEBIAN_CRATES.glob(f"{name}-*"), DEBIAN_CRATES / name) for name in ("cc", "serde_json")]
    need("cargo", "rustc 1.82", "gcc", *crates)
    folder = tmp_path_factory.getbasetemp() / "cargo"
    folder.mkdir(exist_ok=True)
    (folder / "config.toml").write_text(CARGO_CONFIG)
    monkeypatch.setenv("CARGO_TARGET_DIR", str(folder))
    monkeypatch.setenv("CARGO_HOME", str(folder / "home"))  # what cargo fetches
    return folder


def cargo(*args, folder=ROOT, **environment):
    """Runs cargo, which must succeed."""
    done = try_cargo(*args, folder=folder, **environment)
    assert done.returncode == 0, done.stdout + done.stderr


def try_cargo(*args, folder, **environment):
    config = pathlib.Path(os.environ["CARGO_TARGET_DIR"], "config.toml")
    command = ["cargo", args[0], "--config", config, "--quiet", *args[1:]]
    return subprocess.run(command, cwd=folder, env={**os.environ, **environment}, capture_output=True, text=True)


@pytest.mark.parametrize("args", [[], ["--release", "--no-default-features"]], ids=["debug", "release without std"])
def test_the_tests_of_the_crate_pass(args):
    cargo("test", *args)


def test_calls_access_only_what_they_are_given(need):
    need("valgrind")
    runner = {"CARGO_TARGET_X86_64_UNKNOWN_LINUX_GNU_RUNNER": "valgrind -q --error-exitcode=9"}
    cargo("test", "--test", "columns", "--", "--skip", "past_32_bits", **runner)


def test_clippy_and_the_oldest_rust_find_nothing(need):
    need("cargo-clippy")
    oldest = re.search(r'^rust-version = "(.*)"$', (ROOT / "Cargo.toml").read_text(), re.M)[1]
    assert f"Rust {oldest} or newer" in (ROOT / "bindings/rust/README.md").read_text()
    cargo("clippy", "--all-targets", "--", "-D", "warnings")


def test_builds_with_core_and_alloc_alone(tmp_path):
    """The compiler is given these two libraries and no others."""
    triple = re.search(r"^host: (.*)$", subprocess.check_output(["rustc", "-vV"], text=True), re.M)[1]
    sysroot = subprocess.check_output(["rustc", "--print", "sysroot"], text=True).strip()
    copy = tmp_path / "lib/rustlib" / triple / "lib"
    copy.mkdir(parents=True)
    for name in ("core", "alloc", "compiler_builtins", "rustc_std_workspace_core"):
        for library in pathlib.Path(sysroot, "lib/rustlib", triple, "lib").glob(f"lib{name}-*"):
            shutil.copy(library, copy)
    args = ["--edition", "2021", "--crate-type", "lib", "--emit", "metadata", "--out-dir", tmp_path]
    subprocess.run(["rustc", "--sysroot", tmp_path, *args, ROOT / "bindings/rust/src/lib.rs"], check=True,
                   env={**os.environ, "SKETCH_HASH_NAMESPACE": "as_build_rs_says_"})


@pytest.fixture(scope="session")
def repository(need, tmp_path_factory):
    """A repository of git with this one's files as they are, from which cargo takes a crate."""
    need("git")
    folder = tmp_path_factory.mktemp("repository")
    listed = subprocess.check_output(["git", "ls-files", "-co", "--exclude-standard"], cwd=ROOT, text=True)
    for name in ["Cargo.toml", "LICENSE", "NOTICE", "dist", "bindings/rust"]:
        for file in re.findall(rf"^{name}(?:/.*)?$", listed, re.M):
            (folder / file).parent.mkdir(parents=True, exist_ok=True)
            shutil.copy(ROOT / file, folder / file)
    author = ["-c", "user.name=a", "-c", "user.email=a"]
    for command in (["init", "--quiet"], ["add", "."], [*author, "commit", "--quiet", "--message", "a"]):
        subprocess.run(["git", "-C", folder, *command], check=True)
    return folder


def new_crate(folder, dependency, *lines):
    """A crate that depends on this one."""
    manifest = ["[package]", 'name = "plugin"', 'edition = "2021"', *lines, "[dependencies]", f"sketch-hash = {dependency}"]
    (folder / "Cargo.toml").write_text("\n".join(manifest))
    (folder / "src").mkdir()
    return folder / "src"


def test_package_has_its_files_and_builds_on_its_own(target, repository):
    """cargo itself builds what it packs."""
    cargo("package", folder=repository)
    (packed,) = target.glob("package/sketch-hash-*/")
    for name in ("dist/sketch_hash.c", "dist/include/sketch_hash.h", "LICENSE", "NOTICE"):
        assert (packed / name).read_bytes() == (ROOT / name).read_bytes()
    cargo("test", "--test", "columns", folder=packed)


def test_a_vendored_crate_builds(need, repository, tmp_path, target):
    """From git; cc is vendored too, from a copy: cargo 1.85 removes the crates of a folder that it vendors."""
    need("cargo 1.95")
    shutil.copytree(DEBIAN_CRATES, tmp_path / "crates")
    config = (target / "config.toml").read_text()
    (tmp_path / "copy.toml").write_text(config.replace(str(DEBIAN_CRATES), str(tmp_path / "crates")))
    source = new_crate(tmp_path, f'{{ git = "{repository.as_uri()}" }}')
    (source / "main.rs").write_text('fn main() { assert_eq!(sketch_hash::xxh64(b"", 0), 0xef46_db37_51d8_e999); }')
    done = try_cargo("vendor", "--respect-source-config", "--config", tmp_path / "copy.toml", folder=tmp_path)
    assert done.returncode == 0, done.stderr
    assert {"cc", "sketch-hash"} <= {path.name for path in (tmp_path / "vendor").iterdir()}
    (tmp_path / "config.toml").write_text(done.stdout)
    cargo("run", "--config", tmp_path / "config.toml", folder=tmp_path)


def test_states_and_filters_are_saved_by_serde(tmp_path):
    source = new_crate(tmp_path, f'{{ path = "{ROOT}", features = ["serde"] }}\nserde = "1"\nserde_json = "1"')
    (source / "main.rs").write_text("""
        use sketch_hash::{BloomFilter, Murmur3X64_128, Xxh64};
        fn main() {
            let (mut one, mut two) = (Xxh64::new(7), Murmur3X64_128::new(7));
            one.update(b"fox");
            two.update(b"fox");
            let mut filter = BloomFilter::with_len(96).unwrap();
            filter.insert(b"fox");
            let saved = serde_json::to_string(&(&one, &two, &filter)).unwrap();
            assert!((one, two, filter.clone()) == serde_json::from_str(&saved).unwrap());
            let short = serde_json::from_str::<Xxh64>("[1, 2]").unwrap_err().to_string();
            assert!(short.contains("Xxh64 is not saved in this number of bytes: 2"), "{short}");
            assert!(serde_json::from_str::<Murmur3X64_128>("[1]").is_err());
            assert!(serde_json::from_str::<BloomFilter>("[1]").is_err());
            assert!(serde_json::from_str::<BloomFilter>("[256]").is_err());
            assert!(serde_json::from_str::<BloomFilter>("5").unwrap_err().to_string().contains("expected bytes"));

            use serde::de::{value::{BytesDeserializer, Error, SeqDeserializer}, Deserialize};
            let bytes = filter.as_bytes();
            assert!(filter == BloomFilter::deserialize(BytesDeserializer::<Error>::new(bytes)).unwrap());
            assert!(filter == BloomFilter::deserialize(SeqDeserializer::<_, Error>::new(bytes.iter().copied())).unwrap());
        }
    """)
    cargo("run", folder=tmp_path)


def test_a_cdylib_exports_none_of_the_calls(target, need, tmp_path):
    need("nm", "linux-x86_64")
    source = new_crate(tmp_path, f'{{ path = "{ROOT}" }}', "[lib]", 'crate-type = ["cdylib"]')
    (source / "lib.rs").write_text('#[no_mangle] extern "C" fn plugin() -> u64 { sketch_hash::xxh64(b"fox", 0) }')
    cargo("build", folder=tmp_path)
    exported = subprocess.check_output(["nm", "-D", target / "debug/libplugin.so"], text=True)
    assert " T plugin" in exported and "sketch_" not in exported


def test_a_wrong_copy_in_the_program_answers_no_call_of_the_crate(wrong_copy, tmp_path):
    """Linked statically, before the crate's own copy, and as a shared library that is loaded first."""
    source = new_crate(tmp_path, f'{{ path = "{ROOT}" }}\n[build-dependencies]\ncc = "1"')
    (tmp_path / "other.c").write_text('#include "sketch_hash.h"\nuint64_t other(void) { return sketch_xxh64("fox", 3, 0); }')
    (tmp_path / "build.rs").write_text(f"""
        fn main() {{
            let (folder, other) = ({json.dumps(str(wrong_copy))}, {json.dumps(str(tmp_path / "other.c"))});
            cc::Build::new().include(folder).file(other).file(format!("{{folder}}/sketch_hash.c")).compile("sketch_hash");
        }}
    """)
    (source / "main.rs").write_text("""
        extern "C" { fn other() -> u64; }
        fn main() {
            let answer = sketch_hash::xxh64(b"fox", 0);
            let mut stream = sketch_hash::Xxh64::new(0);
            stream.update(b"fox");
            assert_eq!((answer, stream.digest()), (0xbce6_c02d_5136_f238, answer));
            assert_ne!(unsafe { other() }, answer);
        }
    """)
    cargo("run", folder=tmp_path)
    program = pathlib.Path(os.environ["CARGO_TARGET_DIR"], "debug/plugin")
    subprocess.run([program], env={**os.environ, "LD_PRELOAD": str(wrong_copy / "libwrong.so")}, check=True)


def test_two_versions_of_the_crate_are_in_one_program(repository, wrong_copy, tmp_path):
    """Each with its own copy of the library: that of the older one is wrong here."""
    older = shutil.copytree(repository, tmp_path / "older")
    shutil.copy(wrong_copy / "sketch_hash.c", older / "dist")
    manifest = (older / "Cargo.toml").read_text()
    (older / "Cargo.toml").write_text(re.sub('^version = ".*"$', 'version = "2.9.0"', manifest, count=1, flags=re.M))
    (tmp_path / "program").mkdir()
    both = f'{{ path = "{ROOT}" }}\nolder = {{ package = "sketch-hash", path = "{older}" }}'
    source = new_crate(tmp_path / "program", both)
    (source / "main.rs").write_text("""
        fn main() {
            assert_eq!(sketch_hash::xxh64(b"fox", 0), 0xbce6_c02d_5136_f238);
            assert_ne!(older::xxh64(b"fox", 0), 0xbce6_c02d_5136_f238);
        }
    """)
    cargo("run", folder=tmp_path / "program")
