"""The seeds of random scripts: one that stays, and one that changes with the commit."""
import hashlib
import pathlib
import subprocess

TOP = pathlib.Path(__file__).resolve().parent.parent
FIXED = 1
SOURCES = ["crates/*/src/**/*", "crates/*/specs/**/*", "tools/**/*.py"]


def commit():
    """The name of the commit that is checked out, or nothing where this is no clone."""
    if not (TOP / ".git").exists():
        return None
    try:
        told = subprocess.run(["git", "rev-parse", "HEAD"], cwd=TOP, capture_output=True, text=True)
    except FileNotFoundError:
        return None
    return told.stdout.strip() if told.returncode == 0 else None


def hash_of_sources():
    """The same where there is no commit to ask for: a hash of the sources, with their names."""
    whole = hashlib.sha256()
    for path in sorted(path for pattern in SOURCES for path in TOP.glob(pattern) if path.is_file()):
        whole.update(str(path.relative_to(TOP)).encode() + b"\0" + path.read_bytes() + b"\0")
    return whole.hexdigest()


def seed_of(name):
    """A seed of eight digits or fewer."""
    return int(hashlib.sha256(name.encode()).hexdigest(), 16) % 10**8


def chosen(seed, tool):
    """The given seed alone, or else both. Prints which are taken, so that a run can be made again."""
    if seed is not None:
        return [seed]
    seeds = [FIXED, seed_of(commit() or hash_of_sources())]
    print(f"{tool}: seeds {seeds[0]} and {seeds[1]}, which is this commit's")
    return seeds
