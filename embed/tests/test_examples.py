"""The examples of embedding: a script on a table, a web service, a program in C."""
import base64
import http.client
import json
import os
import subprocess
import threading
import time
from collections.abc import Iterator
from contextlib import contextmanager
from pathlib import Path
from typing import Any

import pytest

from conftest import DEBIAN, HOME, PROGRAM, VERSION, done, need

EXAMPLES = HOME / "examples/embed"
ENVIRONMENT = {**os.environ, "PYTHONPATH": str(HOME / "python"), "UMC": str(PROGRAM)}
VEHICLE = (HOME / "examples/vehicle.um").read_text()


def has(module: str) -> bool:
    return subprocess.run([DEBIAN, "-c", f"import {module}"], capture_output=True).returncode == 0


# ---- a table

def test_the_script_on_a_table(tmp_path: Path) -> None:
    if not has("pandas"):
        pytest.skip("Debian's python3-pandas isn't there")
    script = EXAMPLES / "trips.py"
    assert done(DEBIAN, script, env=ENVIRONMENT).splitlines() == [
        "car,mass [kg],speed [m/s],energy [J]", "van,2000,12.5,156250.00", "bus,11000.5,8,352016.00",
        "bike,90,5.25,1240.31"]
    (tmp_path / "wrong.csv").write_text("car,mass [kg],speed [m/s]\na,1,2\nb,1,fast\n")
    ran = subprocess.run([DEBIAN, script, tmp_path / "wrong.csv"], env=ENVIRONMENT, capture_output=True, text=True)
    assert (ran.returncode, ran.stdout) == (1, "")
    assert ran.stderr.startswith("trips.py: argument 2, row 2: 'fast' isn't a number")


# ---- a program in C

def test_the_program_in_c(installed: Path, tmp_path: Path) -> None:
    need("pkg-config")
    root = {**os.environ, "PKG_CONFIG_PATH": str(installed / "usr/local/lib/pkgconfig"),
            "PKG_CONFIG_SYSROOT_DIR": str(installed)}
    flags = done("pkg-config", "--cflags", "--libs", "umc", env=root).split()
    assert done("pkg-config", "--modversion", "umc", env=root).strip() == VERSION
    done("cc", "-Wall", "-Wextra", "-Werror", EXAMPLES / "call.c", *flags, "-o", tmp_path / "call")
    run = {"env": {**os.environ, "LD_LIBRARY_PATH": str(installed / "usr/local/lib")}}
    file = HOME / "examples/vehicle.um"
    assert done(tmp_path / "call", file, "mean", "[1<m>; 2<m>; 6<m>]", **run) == "3<m>\n"
    done(tmp_path / "call", file, "mean", "[1<m>; 2<s>]", status=11, **run)
    done(tmp_path / "call", tmp_path / "none.um", "mean", status=66, **run)
    done(tmp_path / "call", file, status=64, **run)
    # The static library makes a program that needs no other file.
    static = installed / "usr/local/lib/libumc.a"
    done("cc", f"-I{installed}/usr/local/include", EXAMPLES / "call.c", static, "-o", tmp_path / "alone")
    assert done(tmp_path / "alone", file, "metres", "10<ft>") == "381r125<m>\n"


# ---- a service

@contextmanager
def serving(*words: str) -> Iterator[Any]:
    running = subprocess.Popen([DEBIAN, EXAMPLES / "service.py", "--port", "0", *words], env=ENVIRONMENT,
                               stdout=subprocess.PIPE, text=True)
    address = running.stdout.readline().strip().removeprefix("http://")
    assert address, "the service doesn't begin"
    yield lambda path, body, **headers: ask(address, path, body, headers)
    running.terminate()
    running.wait()
    running.stdout.close()


@pytest.fixture(scope="module")
def service() -> Iterator[Any]:
    with serving("--seconds", "20") as asks:
        yield asks


def ask(address: str, path: str, body: object, headers: dict[str, str]) -> tuple[int, dict]:
    link = http.client.HTTPConnection(address, timeout=100)
    data = body if isinstance(body, bytes) else json.dumps(body).encode()
    link.request("POST", path, data, headers)
    answer = link.getresponse()
    tree = json.loads(answer.read())
    link.close()
    return answer.status, tree


def test_the_service_answers_calls(service: Any) -> None:
    assert service("/types", {"text": "let k = 1"}) == (200, {"status": 0, "types": ["k : num"]})
    asked = {"text": VEHICLE, "function": "mean", "arguments": ["[1<m>; 2<m>]"]}
    assert service("/call", asked) == (200, {"status": 0, "text": "3r2<m>"})
    asked = {"text": "let f (x: num<km>) = km_to_m x", "library": ["si"], "function": "f", "arguments": ["2<km>"]}
    assert service("/call", asked) == (200, {"status": 0, "text": "2000<m>"})
    status, tree = service("/call", {"text": VEHICLE, "function": "mean", "arguments": ["[1<m>; 2<q>]"]})
    assert (status, tree["status"], tree["kind"]) == (200, 11, "call")
    status, tree = service("/types", {"text": "let k = x"})
    assert (status, tree["status"], tree["line"], tree["column"]) == (200, 7, 1, 9)


def test_the_service_takes_images(service: Any) -> None:
    image = subprocess.run([PROGRAM, "image"], input=(HOME / "examples/mean.um").read_bytes(), capture_output=True)
    asked = {"image": base64.b64encode(image.stdout).decode(), "function": "mean", "arguments": ["[1; 2]"]}
    assert service("/call", asked) == (200, {"status": 0, "text": "3r2"})
    asked["image"] = base64.b64encode(image.stdout[:-1] + b"\xff").decode()
    status, tree = service("/call", asked)
    assert (status, tree["kind"]) == (200, "image")


@pytest.mark.parametrize("path, body, status", [
    ("/types", b"{", 400), ("/types", b"[1]", 400), ("/types", {}, 400), ("/types", {"text": 1}, 400),
    ("/types", {"text": "", "library": ["../etc/passwd"]}, 400), ("/types", {"text": "", "library": ["nowhere"]}, 400),
    ("/types", {"text": "// with: /etc/passwd\nlet k = 1"}, 400),
    ("/call", {"text": "let k = 1", "function": "j"}, 400), ("/call", {"text": "let k = 1", "function": ["k"]}, 400),
    ("/call", {"text": "let k = 1", "function": "k", "arguments": [1]}, 400),
    ("/call", {"text": "let k = 1", "function": "k", "arguments": ["\0"]}, 400),
    ("/call", {"image": "?", "function": "k"}, 400), ("/call", {"image": "", "function": "--help"}, 400),
    ("/other", {"text": ""}, 404), pytest.param("/types", b"[" * 100000, 400, id="deep")])
def test_the_service_refuses_other_requests(service: Any, path: str, body: Any, status: int) -> None:
    found, tree = service(path, body)
    assert (found, list(tree)) == (status, ["error"])
    assert service("/types", {"text": "let k = 1"})[0] == 200


def test_the_service_refuses_long_requests(service: Any) -> None:
    assert service("/types", {"text": "/" * (1 << 22)})[0] == 413
    assert service("/types", {"text": "let k = 1"})[0] == 200


ENDLESS = "\n".join(["let f (x: num) =", *(f"  let x{n} = [{p}; {p}] in" for n, p in enumerate(
    ["x", *(f"x{n}" for n in range(39))])), "  x39"])


def test_the_service_ends_a_run_at_its_limits() -> None:
    found = []
    asked = {"text": ENDLESS, "function": "f", "arguments": ["1"]}
    began = time.monotonic()
    with serving("--seconds", "2", "--memory", "300", "--at-once", "2") as service:
        threads = [threading.Thread(target=lambda: found.append(service("/call", asked)[0])) for _ in range(6)]
        for thread in threads:
            thread.start()
        for thread in threads:
            thread.join()
    assert time.monotonic() - began < 100
    assert set(found) <= {429, 503} and 503 in found
