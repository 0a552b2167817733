"""A small clone for the cases of the launcher, with a toolchain that pretends to prove, and terminals to press Ctrl-C on."""
import os
import pty
import shutil
import signal
import subprocess
import time
from pathlib import Path

HERE = Path(__file__).resolve().parent
TOP = HERE.parent.parent
CRATES = "low:\nuasdisk: low clap\ndecode_program: low\nserve_program: low\n"


def same(got, wanted):
    assert got == wanted, f"{got!r} in place of {wanted!r}"


class Clone:
    """A clone of a few small crates with the launcher, a user's cache and folder, and a toolchain that pretends."""

    def __init__(self, room):
        self.top, self.here, self.pretend, self.cache = (Path(room) / name for name in ("clone", "here", "pretend", "cache/uasdisk"))
        self.rooms = Path(room) / "rooms"
        for folder in (self.here, self.pretend, self.rooms):
            folder.mkdir()
        self.add("uasdisk", "launcher", "help", "completions", "docs/DECISIONS.md")
        (self.top / "crates.txt").write_text(CRATES)
        (self.top / "HANDLES").write_text("Handles allowed: none.\n")
        for crate in ("low", "uasdisk", "decode_program", "serve_program"):
            (self.top / "crates" / crate / "src").mkdir(parents=True)
            self.source(crate).write_text(f"//! {crate}\nfn one() {{}}\n")
        self.environment = {**os.environ, "PATH": f"{HERE / 'pretend'}:{os.environ['PATH']}", "PRETEND": str(self.pretend),
                            "XDG_CACHE_HOME": str(self.cache.parent), "TMPDIR": str(self.rooms)}

    def add(self, *names):
        """Copies files and folders of the repository."""
        for name in names:
            to = self.top / name
            to.parent.mkdir(parents=True, exist_ok=True)
            (shutil.copytree if (TOP / name).is_dir() else shutil.copy)(TOP / name, to)

    def source(self, crate):
        return self.top / "crates" / crate / "src/main.rt"

    def run(self, *words, program="uasdisk", given="", **how):
        how = {"cwd": self.here, "env": self.environment, "input": given, "capture_output": True, "text": True, "timeout": 60, **how}
        return subprocess.run([self.top / program, *words], **how)

    def begin(self, *words, **how):
        return subprocess.Popen([self.top / "uasdisk", *words], cwd=self.here, env=self.environment, **how)

    def order(self, name, text):
        (self.pretend / name).write_text(str(text))

    def calls(self):
        """What the toolchain was called for."""
        file = self.pretend / "calls"
        return file.read_text().splitlines() if file.exists() else []

    def kept(self):
        """The programs of the cache, with the ends of their names."""
        return sorted("proved" if not it.suffix else it.suffix[1:] for it in self.cache.glob("[0-9a-f]*") if it.stat().st_mode & 0o100)


def on_terminal(clone, *words, program="uasdisk", cut_when=None):
    """Runs words on a terminal of their own, on which Ctrl-C is pressed once `cut_when` holds. What was shown, and the status."""
    process, terminal = pty.fork()
    if process == 0:
        os.chdir(clone.here)
        os.execve(clone.top / program, [program, *words], clone.environment)
    os.set_blocking(terminal, False)
    text, last, ended = b"", time.monotonic() + 60, 0
    while not ended:
        if cut_when and cut_when():
            os.write(terminal, b"\x03")
            cut_when = None
        if time.monotonic() > last:
            os.kill(process, signal.SIGKILL)
        ended, how = os.waitpid(process, os.WNOHANG)
        try:
            text += os.read(terminal, 65536)
        except OSError:
            time.sleep(0.02)
    os.close(terminal)
    return text.decode().replace("\r\n", "\n"), os.waitstatus_to_exitcode(how)


def alive(clone):
    """The processes that this clone's calls started."""
    mark = f"PRETEND={clone.pretend}\0".encode()
    found = []
    for process in Path("/proc").glob("[0-9]*"):
        try:
            if mark in (process / "environ").read_bytes():
                found.append((process / "cmdline").read_bytes())
        except OSError:
            pass
    return found


def cut(clone, *words, program="uasdisk"):
    """Presses Ctrl-C once the toolchain is at work: status 130, at once and quietly, and nothing is left of what was started."""
    clone.order("slow", 100)
    text, status = on_terminal(clone, *words, program=program, cut_when=lambda: any(b"sleep\x00100\0" in it for it in alive(clone)))
    # what was killed is gone a moment later
    last = time.monotonic() + 1
    while alive(clone) and time.monotonic() < last:
        time.sleep(0.02)
    same((status, alive(clone)), (130, []))
    assert "Traceback" not in text and "terminated" not in text.lower(), text
    return text
