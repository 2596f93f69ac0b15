"""What `make install` and tools/package put down, used from a folder of its own."""
import os
import re
import shlex
import shutil
import subprocess
from pathlib import Path

import pytest

from conftest import DEBIAN, HOME, PROGRAM, VERSION, done, need


def asked(document: str) -> list[tuple[str, str]]:
    """The commands of a document that name a program of the checkout, each with its answer."""
    found: list[tuple[str, str]] = []
    inside = None
    for line in (HOME / document).read_text().splitlines(keepends=True):
        if line.startswith("```"):
            inside = None
        elif line.startswith(("$ ./umc ", "$ ./um ")):
            found.append((line[2:].rstrip("\n"), ""))
            inside = True
        elif inside:
            found[-1] = (found[-1][0], found[-1][1] + line)
    return found


def check_readme(folder: Path, **environment: str) -> None:
    """The commands of README give its answers from what is installed in a folder, which has the examples too."""
    names = {"PATH": f"{folder}/bin:/usr/bin:/bin", "HOME": "/nowhere", "PYTHONDONTWRITEBYTECODE": "1", **environment}
    commands = asked("README.md")
    assert len(commands) >= 5
    for command, answer in commands:
        words = re.sub(r"\./(umc?)\b", r"\1", command)
        ran = subprocess.run(["sh", "-c", words], cwd=folder / "share/umc", env=names, stdout=subprocess.PIPE,
                             stderr=subprocess.STDOUT, text=True)
        assert ran.stdout.startswith(answer.splitlines(keepends=True)[0]), (command, ran.stdout)


def files(folder: Path) -> list[str]:
    return sorted(str(it.relative_to(folder)) for it in folder.rglob("*") if not it.is_dir() or it.is_symlink())


def test_what_is_installed_answers_as_readme_says(installed: Path) -> None:
    # The paths in `um` are those without DESTDIR.
    check_readme(installed / "usr/local", PYTHONPATH=str(installed / "usr/local/share/umc/python"))


def test_all_parts_are_installed(installed: Path) -> None:
    there = files(installed / "usr/local")
    for name in ("bin/um", "bin/umc", "include/umc.h", "lib/libumc.a", "lib/libumc.so", "lib/libumc.so.1",
                 f"lib/libumc.so.{VERSION}", "lib/pkgconfig/umc.pc", "share/man/man1/um.1.gz",
                 "share/man/man1/umc.1.gz", "share/bash-completion/completions/um",
                 "share/fish/vendor_completions.d/um.fish", "share/zsh/site-functions/_um",
                 "share/umc/library/si.um", "share/umc/python/umc/VERSION",
                 "share/umc/editors/vim/syntax/um.vim", "share/umc/examples/embed/call.c"):
        assert name in there
    assert not [name for name in there if "__pycache__" in name or name.endswith("~")]
    done("bash", "-n", installed / "usr/local/share/bash-completion/completions/um")
    if shutil.which("zsh"):
        done("zsh", "-n", installed / "usr/local/share/zsh/site-functions/_um")


def test_the_links_of_an_installed_document_lead_somewhere(installed: Path) -> None:
    documents = installed / "usr/local/share/doc/umc"
    for document in [documents / "README.md", *documents.glob("docs/*.md")]:
        for link in re.findall(r"\]\(([^)#:]+)(?:#[^)]*)?\)", document.read_text()):
            assert (document.parent / link).exists(), (document.name, link)


def test_uninstall_removes_what_was_installed(libraries: Path, tmp_path: Path) -> None:
    words = ["make", "-s", f"DESTDIR={tmp_path}", "PREFIX=/opt/umc", f"PROGRAM={PROGRAM}", f"LIBRARIES={libraries}"]
    other = tmp_path / "opt/umc/lib/other"
    other.parent.mkdir(parents=True)
    other.write_text("")
    done(*words, "install", cwd=HOME)
    assert len(files(tmp_path)) > 50
    assert "/opt/umc/share/umc/python" in (tmp_path / "opt/umc/bin/um").read_text()
    done(*words, "uninstall", cwd=HOME)
    assert files(tmp_path) == ["opt/umc/lib/other"]


def test_nothing_is_built_or_proved(tmp_path: Path) -> None:
    ran = subprocess.run(["make", "install", f"DESTDIR={tmp_path}", "PROGRAM=none"], cwd=HOME, capture_output=True,
                         text=True)
    assert ran.returncode == 2 and "./build proves and builds it" in ran.stderr
    assert files(tmp_path) == []


# ---- packages

def package(kind: str, libraries: Path, folder: Path) -> Path:
    done(HOME / "tools/package", "--program", PROGRAM, "--libraries", libraries, "--out", folder, "--only", kind,
         "--maintainer", "Somebody <somebody@example.org>")
    (made,) = folder.iterdir()
    return made


ASKS = """import umc
p = umc.Program("let f (x: num<km>) = km_to_m x", library=["si"])
print(p.f((2, "km")).text, type(p.engine).__name__)
"""


def plain(**more: str) -> dict[str, str]:
    """The environment, without what says which program, library and module are taken."""
    ours = ("UMC", "UMC_LIBRARY", "UM_PATH", "PYTHONPATH")
    return {**{name: it for name, it in os.environ.items() if name not in ours}, "PYTHONDONTWRITEBYTECODE": "1", **more}


def test_the_debian_package(libraries: Path, tmp_path: Path) -> None:
    need("dpkg-deb", "strip")
    made = package("deb", libraries, tmp_path / "made")
    assert made.name == f"umc_{VERSION}_amd64.deb"
    done("dpkg-deb", "-x", made, tmp_path / "root")
    check_readme(tmp_path / "root/usr", PYTHONPATH=str(tmp_path / "root/usr/lib/python3/dist-packages"))
    if not os.access("/usr/bin/lintian", os.X_OK):
        pytest.skip("the package answers; Debian's lintian isn't there")
    said = subprocess.run(["lintian", "--allow-root", "--no-cfg", made], capture_output=True, text=True)
    assert [line for line in said.stdout.splitlines() if line.startswith("E:")] == []


def test_the_wheel(libraries: Path, tmp_path: Path) -> None:
    need("strip")
    if subprocess.run([DEBIAN, "-m", "wheel", "version"], capture_output=True).returncode:
        pytest.skip("Debian's python3-wheel isn't there")
    made = package("wheel", libraries, tmp_path / "made")
    assert made.name == f"umc-{VERSION}-py3-none-linux_x86_64.whl"
    done(DEBIAN, "-m", "wheel", "unpack", "--dest", tmp_path, made)
    said = done(DEBIAN, "-c", ASKS, env=plain(PYTHONPATH=str(tmp_path / f"umc-{VERSION}")), cwd=tmp_path)
    assert shlex.split(said) == ["2000<m>", "Library"]


def test_pip_installs_the_wheel(libraries: Path, tmp_path: Path) -> None:
    """Into an environment of its own, without network, and away again."""
    need("strip")
    if subprocess.run([DEBIAN, "-c", "import ensurepip, wheel"], capture_output=True).returncode:
        pytest.skip("Debian's python3-venv or python3-wheel isn't there")
    made = package("wheel", libraries, tmp_path / "made")
    done(DEBIAN, "-m", "venv", tmp_path / "venv")
    before, commands = files(tmp_path / "venv"), tmp_path / "venv/bin"
    environment = plain(PATH=f"{commands}:/usr/bin:/bin")
    pip = [commands / "python", "-m", "pip", "--quiet", "--no-input", "--disable-pip-version-check"]
    done(*pip, "install", "--no-index", "--no-compile", made, env=environment)
    assert shlex.split(done(commands / "python", "-c", ASKS, env=environment, cwd=tmp_path)) == ["2000<m>", "Library"]
    called = ["run", HOME / "examples/vehicle.um", "metres", "10<ft>"]
    assert done(commands / "um", *called, env=environment, cwd=tmp_path) == "381r125<m>\n"
    done(*pip, "uninstall", "--yes", "umc", env=environment)
    assert [name for name in files(tmp_path / "venv") if name not in before and "__pycache__" not in name] == []
