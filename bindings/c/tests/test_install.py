"""The library for C as people build and install it: make, pkg-config, CMake, Meson."""
import functools
import os
import re
import shlex
import shutil
import subprocess

import pytest
from conftest import CALLS, DIST, VERSION, block_of, output

MAJOR, MINOR, _ = map(int, VERSION.split("."))
SHARED = f"libsketch_hash.so.{MAJOR}"
SHARED_FILES = ("lib/libsketch_hash.so", f"lib/{SHARED}")  # a link, and the library
NEW_CALLS = {"sketch_seed_hash": 2}  # in which minor version they came

INSTALLED = {
    "include/sketch_hash.h", "lib/libsketch_hash.a", *SHARED_FILES, "lib/pkgconfig/sketch_hash.pc",
    *(f"lib/cmake/sketch_hash/sketch_hash-{name}.cmake" for name in ("config", "config-version")),
    *(f"share/doc/sketch_hash/{name}" for name in ("LICENSE", "NOTICE", "PROVED", "README.md")),
}
FOX = "0b242d361fda71bc\n"  # what the first program of dist/README.md prints


def files_in(folder):
    return {str(path.relative_to(folder)) for path in folder.rglob("*") if not path.is_dir()}


@pytest.fixture
def dist(tmp_path):
    """A copy of dist/, since make writes beside the text."""
    return shutil.copytree(DIST, tmp_path / "a copy/dist", ignore=shutil.ignore_patterns("*.a", "*.o", "*.so.*", "wasm"))


@pytest.fixture
def make(dist, need):
    need("make", "gcc")
    return functools.partial(output, "make", "-C", dist)


@pytest.fixture
def prefix(make, tmp_path):
    """Where make has installed the library; the path has a blank."""
    make("install", f"PREFIX={tmp_path}/a prefix")
    return tmp_path / "a prefix"


# ---- make

@pytest.mark.parametrize("folders, place, lib", [
    ({}, "usr/local", "lib"), ({"PREFIX": "/usr", "LIBDIR": "/usr/lib/triple"}, "usr", "lib/triple"),
], ids=["by default", "as Debian"])
def test_install_and_uninstall_change_only_what_is_below_destdir(folders, place, lib, make, tmp_path):
    """By variables on the command line or in the environment. Everybody may read what is installed."""
    folders = {"DESTDIR": f"{tmp_path}/a stage", **folders}
    files = {f"{place}/{name}".replace("/lib/", f"/{lib}/", 1) for name in INSTALLED}
    for args, environment in (([f"{name}={value}" for name, value in folders.items()], {}), ([], folders)):
        make("install", *args, env={**os.environ, **environment}, umask=0o077)
        assert files_in(tmp_path / "a stage") == files
        for path in tmp_path.glob("a stage/**/*"):
            assert path.stat().st_mode & 0o777 == (0o755 if path.is_dir() or ".so" in path.name else 0o644)
        make("uninstall", *args, env={**os.environ, **environment})
        assert files_in(tmp_path / "a stage") == set()


def test_an_upgrade_replaces_the_library_in_use(prefix, make, tmp_path):
    os.link(prefix / "lib" / SHARED, tmp_path / "in_use")
    make("install", f"PREFIX={prefix}")
    assert not (prefix / "lib" / SHARED).samefile(tmp_path / "in_use")


def test_uninstall_keeps_other_files(prefix, make):
    others = {"include/sketch_hash2.h", "lib/libsketch_hash.so.1", "share/man/man3/sketch_hash.3"}
    for name in others:
        (prefix / name).parent.mkdir(parents=True, exist_ok=True)
        (prefix / name).touch()
    for _ in range(2):  # there may be nothing to remove
        make("uninstall", f"PREFIX={prefix}")
        assert files_in(prefix) == others
    assert not (prefix / "share/doc/sketch_hash").exists()


def test_check_fails_for_a_wrong_answer(wrong_copy, dist, make):
    shutil.copy(wrong_copy / "sketch_hash.c", dist)
    with pytest.raises(subprocess.CalledProcessError) as error:
        make("check")
    assert "FAILED: these answers are not the published ones" in error.value.stdout


@pytest.mark.parametrize("flags", [
    [], ["CC=clang"], ["CFLAGS=-O2 -fvisibility=hidden"], ["CPPFLAGS=-DSKETCH_HASH_NAMESPACE=mine_"],
    ["CC=clang", "CPPFLAGS=-DSKETCH_HASH_NAMESPACE=mine_", "CFLAGS=-O2 -fvisibility=hidden"],
], ids=["gcc", "clang", "hidden", "namespace", "both"])
def test_make_builds_both_libraries_whatever_the_flags_are(flags, make, dist, need):
    """The shared one has a name, and exports each call with its version, and nothing else."""
    need("nm", "readelf", *(["clang"] if "CC=clang" in flags else []))
    assert make("check", *flags).count(": OK: ") == 2
    exported = re.findall(r" [B-Zb-z] (\S+)$", output("nm", "-D", "--defined-only", dist / SHARED), re.M)
    namespace = "mine_" if "NAMESPACE=mine_" in " ".join(flags) else ""
    versions = {call: f"SKETCH_HASH_{MAJOR}.{NEW_CALLS.get(call, 0)}" for call in CALLS}
    assert {*exported} - {*versions.values()} == {f"{namespace}{call}@@{version}" for call, version in versions.items()}
    headers = output("readelf", "-Wld", dist / SHARED)
    assert f"[{SHARED}]" in headers and re.search(r"GNU_STACK .* RW +0", headers)


# ---- pkg-config, CMake and Meson

def cmake(source, build, *args):
    output("cmake", "-S", source, "-B", build, *args)
    output("cmake", "--build", build)


@pytest.fixture
def cmake_project(need, tmp_path):
    """cmake_project(find): what the program of the page prints, built in a project that finds the library by these lines."""
    need("cmake", "gcc")
    folder = tmp_path / "project"
    folder.mkdir()

    def cmake_project(find, *args, target="sketch_hash::sketch_hash"):
        (folder / "CMakeLists.txt").write_text("\n".join([
            "cmake_minimum_required(VERSION 3.14)", "project(fox C)", "add_executable(fox fox.c)", *find,
            f"target_link_libraries(fox {target})"]))
        (folder / "fox.c").write_text(block_of("dist/README.md", "c"))
        cmake(folder, folder / "b", "-DCMAKE_BUILD_TYPE=Release", f"-DCMAKE_INSTALL_PREFIX={folder}/nothing", *args)
        return output(folder / "b/fox")

    return cmake_project


@pytest.fixture(params=["make", "cmake"])
def install(request, make, need, tmp_path, monkeypatch):
    """install(prefix): by make or by CMake, each with arguments of its own. pkg-config finds it there."""
    def install(prefix, make_args=("install",), cmake_args=()):
        monkeypatch.setenv("PKG_CONFIG_LIBDIR", str(prefix / "lib/pkgconfig"))
        if request.param == "make":
            make(*make_args, f"PREFIX={prefix}")
        else:
            need("cmake")
            cmake(DIST, tmp_path / "build", f"-DCMAKE_INSTALL_PREFIX={prefix}", "-DCMAKE_INSTALL_LIBDIR=lib", *cmake_args)
            output("cmake", "--install", tmp_path / "build")

    return install


def test_pkg_config_finds_the_library(install, need, tmp_path, monkeypatch):
    """Also in a folder with characters that mean something to sed and to CMake."""
    need("pkg-config")
    prefix = tmp_path / "a|b&c d@prefix@"
    install(prefix)
    assert files_in(prefix) == INSTALLED
    monkeypatch.setenv("LD_LIBRARY_PATH", str(prefix / "lib"))
    (tmp_path / "filter.c").write_text(block_of("dist/README.md", "c bloom"))
    flags = shlex.split(output("pkg-config", "--cflags", "--libs", "sketch_hash"))
    assert flags == [f"-I{prefix}/include", f"-L{prefix}/lib", "-lsketch_hash"]
    output("gcc", "-Wall", "-Wextra", "-Werror", "-o", tmp_path / "filter", tmp_path / "filter.c", *flags)
    assert output(tmp_path / "filter") == "certainly not\n"
    assert output("pkg-config", "--static", "--libs-only-l", "sketch_hash").split() == ["-lsketch_hash"]


def test_a_shared_library_hides_the_copy_in_it(install, need, tmp_path):
    """The archive, whose code can be moved, or the text with the option of dist/README.md. Exported calls could replace those
    of another version in the same process."""
    need("nm")
    option = re.search(r"`(-fvisibility=hidden)`", (DIST / "README.md").read_text())[1]
    install(tmp_path / "prefix")
    (tmp_path / "plugin.c").write_text('#include "sketch_hash.h"\n__attribute__((visibility("default"))) uint64_t plugin(void) '
                                       '{ return sketch_xxh64("fox", 3, 0); }')
    command = ["gcc", "-fPIC", "-shared", "-I", DIST / "include", "-o", tmp_path / "plugin.so", tmp_path / "plugin.c"]
    for embedded in ([tmp_path / "prefix/lib/libsketch_hash.a"], [DIST / "sketch_hash.c", option]):
        output(*command, *embedded)
        exported = output("nm", "-D", "--defined-only", tmp_path / "plugin.so")
        assert " T plugin" in exported and "sketch_" not in exported


@pytest.mark.parametrize("missing", [(), SHARED_FILES], ids=["both", "only static"])
@pytest.mark.parametrize("target", ["sketch_hash::sketch_hash", "sketch_hash::sketch_hash_static"])
def test_cmake_finds_the_library(target, missing, install, cmake_project, tmp_path):
    """Also if only the static one is there."""
    prefix = tmp_path / "installed & here"
    install(prefix)
    for name in missing:
        (prefix / name).unlink()
    find = [f"find_package(sketch_hash {MAJOR}.{MINOR} REQUIRED)"]
    assert cmake_project(find, f"-DCMAKE_PREFIX_PATH={prefix}", target=target) == FOX
    is_shared = target == "sketch_hash::sketch_hash" and not missing
    assert ("libsketch_hash" in output("ldd", tmp_path / "project/b/fox")) == is_shared


def test_cmake_takes_a_version_that_can_serve(prefix, cmake_project, need):
    """One that is as new as the one that is asked for, with the same first number, or in the range."""
    need("cmake 3.19")
    serves = {f"{MAJOR}.{MINOR}": 1, f"{MAJOR - 1}.0": 0, f"{MAJOR}.{MINOR + 1}": 0, f"{MAJOR + 1}.0": 0,
              f"{MAJOR}.0...{MAJOR}.{MINOR}.99": 1, f"{MAJOR - 1}...{MAJOR + 1}": 1, f"{MAJOR}.0...{VERSION}": 1,
              f"{MAJOR}.0...<{VERSION}": 0, f"{MAJOR - 1}.0...{MAJOR}.0.5": 0, f"{MAJOR}.{MINOR + 1}...{MAJOR + 2}": 0}
    find = [f"find_package(sketch_hash {asked} QUIET)\nif(NOT sketch_hash_FOUND EQUAL {found})\n"
            f'message(SEND_ERROR "{asked}: ${{sketch_hash_FOUND}}")\nendif()' for asked, found in serves.items()]
    assert cmake_project(find, f"-DCMAKE_PREFIX_PATH={prefix}") == FOX


@pytest.mark.parametrize("shared", [None, "ON", "OFF"])
@pytest.mark.parametrize("parent", [
    "", "set(CMAKE_C_VISIBILITY_PRESET hidden)", "add_compile_options(-fvisibility=hidden)",
    'set(CMAKE_C_FLAGS "-fvisibility=hidden")', "add_compile_definitions(SKETCH_HASH_NAMESPACE=mine_)",
    "set(CMAKE_INTERPROCEDURAL_OPTIMIZATION ON)\nset(CMAKE_UNITY_BUILD ON)\nset(CMAKE_C_EXTENSIONS OFF)",
], ids=["plain", "preset", "option", "flag", "namespace", "lto"])
def test_the_folder_may_be_a_part_of_a_project_of_cmake_with_any_flags(parent, shared, cmake_project, tmp_path):
    """BUILD_SHARED_LIBS says which library is linked, and installing the project does not install the library."""
    args = [f"-DBUILD_SHARED_LIBS={shared}"] if shared else []
    assert cmake_project([parent, f'add_subdirectory("{DIST}" sketch_hash)', "install(TARGETS fox)"], *args) == FOX
    assert ("libsketch_hash" in output("ldd", tmp_path / "project/b/fox")) == (shared != "OFF")
    output("cmake", "--install", tmp_path / "project/b")
    assert files_in(tmp_path / "project/nothing") == {"bin/fox"}


def test_cmake_fetches_the_repository(dist, cmake_project, need):
    """By the lines of the page, from a repository of this folder."""
    need("cmake 3.18", "git")
    commit = ["-c", "user.name=a", "-c", "user.email=a", "commit", "--quiet", "--message", "a"]
    for command in (["init", "--quiet", "--initial-branch", "main"], ["add", "."], commit):
        output("git", "-C", dist.parent, *command)
    assert cmake_project(block_of("dist/README.md", "cmake").replace("URL", dist.parent.as_uri()).splitlines()) == FOX


def test_meson_builds_the_lines_of_the_page(need, tmp_path):
    need("meson", "gcc")
    shutil.copytree(DIST, tmp_path / "sketch_hash")
    (tmp_path / "meson.build").write_text("project('fox', 'c')\n" + block_of("dist/README.md", "meson"))
    (tmp_path / "fox.c").write_text(block_of("dist/README.md", "c"))
    output("meson", "setup", tmp_path / "build", tmp_path)
    output("meson", "compile", "-C", tmp_path / "build")
    assert output(tmp_path / "build/fox") == FOX


# ---- Folders of others

MISREAD = ['quote"', "back`quote", "hash#", "semi;colon"]
NO_FOLDER = "a file for pkg-config can name no folder with"
REFUSED_BY_MAKE = [("here", "no absolute path: here"),
                   *((f"/{name}", NO_FOLDER) for name in (*MISREAD, "$$dollar", "back\\slash"))]


@pytest.mark.parametrize("command, text", [
    *((f"make install DESTDIR=stage/ {variable}={name}", text)
      for variable in ("PREFIX", "LIBDIR", "INCLUDEDIR") for name, text in REFUSED_BY_MAKE),
    # of a backslash CMake itself makes a slash
    *((f"cmake . -DCMAKE_INSTALL_PREFIX=/{name}", NO_FOLDER) for name in (*MISREAD, "$dollar"))])
def test_a_relative_folder_and_one_that_pkg_config_would_misread_are_refused(command, text, dist, need, capfd):
    need("make", "cmake", "gcc")
    with pytest.raises(subprocess.CalledProcessError):
        output(*command.split(), cwd=dist)
    assert text in " ".join(capfd.readouterr().err.split()) and not (dist / "stage").exists()


def test_the_header_may_be_in_a_folder_of_its_own(install, cmake_project, need, tmp_path, monkeypatch):
    """Also if another version's header is in the usual one, and if all was moved to another place."""
    need("pkg-config")
    prefix = tmp_path / "prefix"
    install(prefix, ["install", f"INCLUDEDIR={prefix}/include/sk"], ["-DCMAKE_INSTALL_INCLUDEDIR=include/sk"])
    (prefix / "include/sketch_hash.h").write_text("#error another version")
    prefix = prefix.rename(tmp_path / "moved")
    assert cmake_project(["find_package(sketch_hash REQUIRED)"], f"-DCMAKE_PREFIX_PATH={prefix}") == FOX
    monkeypatch.setenv("PKG_CONFIG_LIBDIR", str(prefix / "lib/pkgconfig"))
    flags = output("pkg-config", "--define-prefix", "--cflags", "sketch_hash").split()
    output("gcc", "-c", "-o", tmp_path / "fox.o", tmp_path / "project/fox.c", *flags)


def test_the_header_for_xxhash_is_installed_for_who_asks(install, make, need, tmp_path, monkeypatch):
    need("pkg-config")
    prefix = tmp_path / "prefix"
    install(prefix, ["install-drop-in"], ["-DSKETCH_HASH_DROP_IN=ON"])
    assert files_in(prefix) == INSTALLED | {"include/sketch_hash/xxhash.h", "include/sketch_hash/sketch_hash.c"}
    monkeypatch.setenv("LD_LIBRARY_PATH", str(prefix / "lib"))
    command = re.search(r"^    flags=.*\n    gcc .*$", (DIST / "README.md").read_text(), re.M)[0]
    program = '#include <stdio.h>\n#include <xxhash.h>\nint main(void) { return XXH64("fox", 3, 0) != 0xbce6c02d5136f238u; }\n'
    for option in ("", "#define XXH_INLINE_ALL\n"):
        (tmp_path / "prog.c").write_text(option + program)
        output("bash", "-c", command, cwd=tmp_path)
        output(tmp_path / "prog")
    make("uninstall", f"PREFIX={prefix}")  # removes also what CMake has installed
    assert files_in(prefix) == set()
