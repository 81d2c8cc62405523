"""Builds the calls over the library for C, whose text is in `c`. In the repository it is copied from `dist`, as the
licence is."""
import hashlib
import os
import pathlib
import re
import shutil
import sys
import sysconfig

from setuptools import Extension, setup
from Cython.Build import cythonize  # after setuptools, which brings its own distutils

here = pathlib.Path(__file__).resolve().parent
if sys.implementation.name != "cpython":
    raise SystemExit(f"sketch-hash needs CPython, whose memory it uses in place; this is {sys.implementation.name}")
if sysconfig.get_config_var("Py_GIL_DISABLED"):
    raise SystemExit(
        "sketch-hash needs CPython with the GIL, by which calls of several threads on one object take turns; "
        "a free-threaded Python has no GIL"
    )
if sys.byteorder != "little":
    raise SystemExit("sketch-hash needs a little-endian processor: on another one its digests would be wrong")
dist = here.parents[1] / "dist"
if (dist / "sketch_hash.c").is_file():
    (here / "c").mkdir(exist_ok=True)
    for name in ("sketch_hash.c", "include/sketch_hash.h"):
        shutil.copy(dist / name, here / "c")
    for name in ("LICENSE", "NOTICE"):
        shutil.copy(dist / name, here)
# Other extensions, or a program that embeds Python, may have another copy of the library. So its names stay inside of each
# module, and have a prefix: another copy with the same names has the same text too.
namespace = f"python_{hashlib.sha256((here / 'c/sketch_hash.c').read_bytes()).hexdigest()[:16]}_"
macros = [("SKETCH_HASH_NAMESPACE", namespace)]
exports = ["-Xlinker", f"--version-script={here}/exports.map"] if sys.platform == "linux" else []
# Python's own flags have -g, whose output is five sixths of a module.
if exports and "-g" not in os.environ.get("CFLAGS", "").split():
    exports += ["-Xlinker", "--strip-debug"]
library = f"{namespace}sketch_hash", {"sources": ["c/sketch_hash.c"], "macros": macros}
modules = [
    Extension(".".join(path.with_suffix("").parts[1:]), [str(path)], include_dirs=["."], define_macros=macros,
              extra_link_args=exports)
    for path in sorted(path.relative_to(here) for path in here.glob("src/**/*.pyx"))
]
directives = {"language_level": 3, "binding": False, "auto_pickle": False, "always_allow_keywords": False}
setup(
    options={"build_clib": {"force": True}, "build_ext": {"force": True}},  # the text may have another version
    name="sketch-hash",
    version=re.search('^__version__ = "(.*)"$', (here / "src/sketch_hash/__init__.py").read_text(), re.M)[1],
    description="XXH64, MurmurHash3 x64 128 and the Bloom filter of Apache Parquet, from functions that are proved",
    long_description=(here / "README.md").read_text(encoding="utf-8"),
    long_description_content_type="text/markdown",
    license="Apache-2.0",
    license_files=["LICENSE", "NOTICE"],
    classifiers=[
        "Operating System :: POSIX :: Linux",
        "Programming Language :: Python :: 3",
        "Typing :: Typed",
    ],
    python_requires=">=3.9",
    packages=["sketch_hash", "sketch_hash.parquet"],
    extras_require={"parquet": ["pyarrow"]},
    package_dir={"": "src"},
    package_data={"sketch_hash": ["py.typed", "*.pyi"], "sketch_hash.parquet": ["*.pyi"]},
    libraries=[library],
    ext_modules=cythonize(modules, build_dir="build", compiler_directives=directives),
)
