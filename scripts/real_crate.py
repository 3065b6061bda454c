"""Programs over the Rust crate postgres-types itself, which are built of Debian's packages in a folder."""
import glob
import os
import shutil
import subprocess
import sys

from measuring import TOP, Program
from packages import install

REGISTRY = "/usr/share/cargo/registry"
# What is used of each crate. `default-features` of chrono need a clock.
CRATES = {
    "bit-vec": '"0.6"',
    "bytes": '"1"',
    "chrono": '{ version = "0.4", default-features = false, features = ["std"] }',
    "eui48": '"1"',
    "fallible-iterator": '"0.2"',
    "postgres-protocol": '"0.6"',
    "postgres-types": '{ version = "0.2", features = ["array-impls", "derive", "with-bit-vec-0_6", "with-chrono-0_4", '
                      '"with-eui48-1", "with-serde_json-1", "with-uuid-1"] }',
    "serde_json": '"1"',
    "uuid": '"1"',
}
# One crate below eui48 has a bound that today's rustc refuses; it is mended in a copy.
MENDED = "rustc-serialize"
MANIFEST = """[package]
name = "real-crate"
version = "0.0.0"
edition = "2024"

[profile.release]
codegen-units = 1
lto = true

[patch.crates-io]
{mended} = {{ path = "{mended}" }}

[dependencies]
{crates}
"""
CONFIG = f"""[source.crates-io]
replace-with = "debian"

[source.debian]
directory = "{REGISTRY}"
"""
FLAGS = "-C target-cpu=x86-64-v2 --cap-lints allow"
# A program of a file in bench, of whose cases it may have one alone.
MAIN = """const ONLY: &str = "{only}";
#[path = "{top}/bench/real_crate.rs"]
mod conversions;
{parts}
fn main() -> Result<(), String> {{
    {part}::main()
}}
"""


def sources_of(crate):
    """The folders of a crate's sources; their names end with a version."""
    return sorted(glob.glob(f"{REGISTRY}/{crate}-[0-9]*"))


def missing_packages():
    wanted = [*CRATES, MENDED, "array-init", "postgres-derive"]
    return [f"librust-{it.replace('_', '-')}-dev" for it in wanted if not sources_of(it)]


def require():
    """Returns the crate's versions as a text. Ends the script with status 3 where cargo or a package cannot be had."""
    if missing_packages():
        install(missing_packages())
    missing = [it for it in ("cargo", "rustc") if not shutil.which(it)] + missing_packages()
    if missing:
        print(f"Nothing is compared with the Rust crate, for want of {', '.join(missing)}")
        sys.exit(3)
    versions = [os.path.basename(sources_of(it)[-1]).rpartition("-") for it in ("postgres-types", "postgres-protocol", "chrono")]
    return ", ".join(f"{crate} {version}" for crate, _, version in versions)


def read(path):
    with open(path, encoding="utf-8") as it:
        return it.read()


def write(path, text):
    """Writes a file, which keeps its time where it has that text, so that cargo builds nothing twice."""
    os.makedirs(os.path.dirname(path), exist_ok=True)
    if not os.path.exists(path) or read(path) != text:
        with open(path, "w", encoding="utf-8") as it:
            it.write(text)


def mend(folder):
    """Copies the crate that is mended: `Cow<'static, T>` is what it decodes."""
    path = f"{folder}/{MENDED}"
    if not os.path.isdir(path):
        shutil.copytree(sources_of(MENDED)[-1], path)
    text = read(f"{path}/src/serialize.rs")
    write(f"{path}/src/serialize.rs", text.replace("impl<'a, T: ?Sized> Decodable for Cow<'a, T>",
                                                   "impl<T: ?Sized> Decodable for Cow<'static, T>"))


def built(folder, mains, link=""):
    """Builds a program of each text, by its name, and returns them by their names."""
    crates = "\n".join(f"{name} = {what}" for name, what in CRATES.items())
    write(f"{folder}/Cargo.toml", MANIFEST.format(mended=MENDED, crates=crates))
    write(f"{folder}/.cargo/config.toml", CONFIG)
    mend(folder)
    for name, text in mains.items():
        write(f"{folder}/src/bin/{name}.rs", text)
    terms = {"CARGO_HOME": f"{folder}/home", "CARGO_TARGET_DIR": f"{folder}/target", "RUSTFLAGS": f"{FLAGS} {link}"}
    ran = subprocess.run(["cargo", "build", "--release", "--offline"], cwd=folder, env={**os.environ, **terms},
                         capture_output=True, text=True, check=False)
    if ran.returncode:
        sys.exit(f"{ran.stderr}the programs over the Rust crate are not built")
    return {name: Program(f"{folder}/target/release/{name}") for name in mains}


def main_of(part, only="", below=()):
    """The text of a program that has the cases of a file in bench, or the only one; other files are below it."""
    parts = "".join(f'#[path = "{TOP}/bench/{it}.rs"]\nmod {it};\n' for it in (*below, part))
    return MAIN.format(top=TOP, parts=parts, part=part, only=only)
