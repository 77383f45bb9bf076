"""What the scripts of this folder share: files, a copy of the crates, building both programs, and
running a command."""

import glob
import os
import shutil
import subprocess
import sys

HERE = os.path.dirname(os.path.realpath(__file__))
TOP = os.path.dirname(HERE)
TARGET = f"{HERE}/target"


def stop(why):
    sys.exit(f"bench/{os.path.basename(sys.argv[0])}: {why}")


def read(path):
    with open(path, encoding="utf-8") as file:
        return file.read()


def write(path, text):
    os.makedirs(os.path.dirname(path), exist_ok=True)
    with open(path, "w", encoding="utf-8") as file:
        file.write(text)


def copy_crates(folder, names, without=()):
    """Copies these crates into a folder, without what was built of them and without these folders."""
    for name in names:
        if not os.path.exists(f"{folder}/crates/{name}"):
            left_out = shutil.ignore_patterns("out", *without)
            shutil.copytree(f"{TOP}/crates/{name}", f"{folder}/crates/{name}", ignore=left_out)


def call(command, **how):
    """Runs a command to its end. Returns what it wrote."""
    try:
        done = subprocess.run(command, stdout=subprocess.PIPE, stderr=subprocess.PIPE, **how)
    except OSError as error:
        stop(f"{command[0]}: {error.strerror}")
    if done.returncode:
        sys.stderr.write((done.stdout + done.stderr).decode(errors="replace")[-4000:])
        stop(f"{' '.join(command)} ended with status {done.returncode}")
    return done


def first_line(*command):
    return call(command).stdout.decode().partition("\n")[0]


def want(**commands):
    """Stops if one of these commands does not exist."""
    for command, whose in commands.items():
        if not shutil.which(command):
            stop(f"{command} was not found; it is {whose}")


def is_current(built):
    """Whether this was built, as by `rt ci`, since a crate changed. Only what is proved is built."""
    sources = [f"{TOP}/crates.txt", *glob.glob(f"{TOP}/crates/*/[sp]*/**/*.*", recursive=True)]
    newest = max(map(os.path.getmtime, sources))
    return os.path.isfile(built) and os.path.getmtime(built) > newest


def build_port(name, *arguments, backend="llvm"):
    """Proves, builds and runs a program of this repository, unless it is built already."""
    folder = f"{TOP}/crates/{name}"
    program = f"{folder}/out/{name}" + ("" if backend == "llvm" else f".by-{backend}")
    if not is_current(program):
        environment = dict(os.environ, RT_BACKEND=backend)
        call(["rt", "run", "--", *arguments], cwd=folder, stdin=subprocess.DEVNULL, env=environment)
        os.replace(f"{folder}/out/{name}", program)
    return program


def build_crate(name):
    """Builds a program over the Rust crate, from its registry or the folder in LEXOPT_SOURCE."""
    command = ["cargo", "build", "--quiet", "--release", "--bin", name, "--target-dir", TARGET]
    # The processor that Rattle builds for.
    command += ["--config", 'build.rustflags=["-Ctarget-cpu=x86-64-v2"]']
    source = os.environ.get("LEXOPT_SOURCE")
    if source:
        source = os.path.abspath(source)
        if not os.path.isfile(f"{source}/Cargo.toml"):
            stop(f"LEXOPT_SOURCE: there is no {source}/Cargo.toml")
        command += ["--offline", "--config", f"patch.crates-io.lexopt.path='{source}'"]
    call(command, cwd=HERE)
    return f"{TARGET}/release/{name}"
