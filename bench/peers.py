"""Builds what is compared, and says what is left out. What was built lies in out/bench."""
import json
import os
import shutil
import subprocess
from dataclasses import dataclass
from pathlib import Path

ROOT = Path(__file__).resolve().parent.parent
OUT = ROOT / "out" / "bench"
REGISTRY = Path("/usr/share/cargo/registry")  # where Debian's packages librust-*-dev put their sources

# The programs in Rust that stand on a crate, with its features.
RUST_PEERS = {
    "tokio_permits": ("tokio", ["sync"]),
    "parking_lot_permits": ("parking_lot", []),
    "threadpool_pool": ("threadpool", []),
    "crossbeam_pool": ("crossbeam", []),
}

# Those whose jobs hand an answer back, beside `ThreadPool` for rustc: a label, and the crates of each.
ANSWERS = {
    "answers_threadpool": ("`threadpool`, a channel for each job", {"threadpool": []}),
    "answers_crossbeam": ("crossbeam's channel, tokio's `oneshot` for each job", {"crossbeam": [], "tokio": ["sync"]}),
    "answers_rayon": ("rayon, tokio's `oneshot` for each job", {"rayon": [], "tokio": ["sync"]}),
    "answers_tokio": ("tokio's tasks", {"tokio": ["rt-multi-thread"]}),
}

BEFORE = os.environ.get("RESIL_BENCH_BEFORE")  # another checkout of the repository, for rows of it


@dataclass
class Peer:
    """What a row of a table is about: a program's words, the name of its rounds, whether it records a history, and the line
    that opens a pool."""

    label: str
    words: list
    round: str
    records: str = ""
    opens: str = "open"


def say(text):
    print(f"bench: {text}", flush=True)


def is_built(what, words, **settings):
    """Whether the command ended well. Where it didn't, what it built is left out, and the end of its output is shown."""
    log = OUT / "build.log"
    with open(log, "w", encoding="utf-8") as output:
        built = subprocess.run(words, stdout=output, stderr=subprocess.STDOUT, check=False, **settings).returncode == 0
    if not built:
        say(f"{what} is left out, since it isn't built:")
        print("".join(log.read_text(encoding="utf-8", errors="replace").splitlines(keepends=True)[-8:]), flush=True)
    return built


def is_there(what, *commands):
    """Whether the commands that a program is built with are there. Where one isn't, the program is left out."""
    missing = next((command for command in commands if not shutil.which(command)), None)
    if missing:
        say(f"{what} is left out: there is no {missing}")
    return missing is None


def build_ours():
    """The measured crate, proved and compiled by LLVM as any program of the repository: by `rt run`."""
    folder = ROOT / "crates" / "resil_bench"
    say("proving and building crates/resil_bench, in some seconds where nothing has changed")
    with open(folder / "stdin", encoding="ascii") as lines:
        if not is_built("crates/resil_bench", ["rt", "run", "--backend", "llvm"], cwd=folder, stdin=lines):
            raise SystemExit(1)
    return [str(folder / "out" / "resil_bench")]


def toolchain():
    return Path(shutil.which("rt")).resolve().parent.parent


def build_c(name, libraries=()):
    what = f"c/{name}.c"
    compiler = os.environ.get("CC", "cc")
    words = [compiler, "-std=c11", "-O2", "-pthread", f"-I{ROOT}/include", "-o", OUT / name, ROOT / "bench" / what]
    return [str(OUT / name)] if is_there(what, compiler) and is_built(what, [*words, *libraries]) else None


def build_java():
    sources = [*sorted((ROOT / "bench/java").glob("*.java")), ROOT / "bindings/java/RecordedThreadPoolExecutor.java"]
    built = is_there("java/", "javac", "java") and is_built("java/", ["javac", "-d", OUT, *sources])
    return ["java", "-cp", str(OUT)] if built else None


def build_rust(name):
    """A program in Rust that needs std alone."""
    what = f"rust/{name}.rs"
    words = ["rustc", "--edition", "2021", "-C", "opt-level=3", "-o", OUT / name, ROOT / "bench" / what]
    return [str(OUT / name)] if is_there(what, "rustc") and is_built(what, words) else None


def build_cargo(name, dependency, source=None, **environment):
    """A program in Rust that stands on a crate, which isn't fetched: it is a folder, or lies in Debian's registry."""
    what = f"rust/{source or name}.rs"
    folder = OUT / f"{name}.crate"
    folder.mkdir(exist_ok=True)
    (folder / "Cargo.toml").write_text(
        f'[package]\nname = "{name}"\nversion = "0.0.0"\nedition = "2021"\n\n[workspace]\n\n'
        f'[[bin]]\nname = "{name}"\npath = "{ROOT}/bench/{what}"\n\n[dependencies]\n{dependency}\n',
        encoding="utf-8",
    )
    words = ["cargo", "build", "--release", "--offline", "--quiet"]
    if REGISTRY.is_dir():
        words += ["--config", 'source.crates-io.replace-with="debian"']
        words += ["--config", f'source.debian.directory="{REGISTRY}"']
    environment = {**os.environ, **environment, "CARGO_TARGET_DIR": str(OUT / "cargo")}
    built = is_there(what, "cargo") and is_built(what, words, cwd=folder, env=environment)
    return [str(OUT / "cargo/release" / name)] if built else None


def is_packaged(what, *crates):
    """Whether the crates of others that a program stands on are there. Where one isn't, the program is left out."""
    missing = next((crate for crate in crates if not any(REGISTRY.glob(f"{crate}-[0-9]*"))), None)
    if missing:
        say(f"{what} is left out: there is no {missing} in {REGISTRY} (Debian's librust-{missing.replace('_', '-')}-dev)")
    return missing is None


def build_rust_peer(name, crates=None):
    """A program that stands on crates of others, where they are there."""
    crates = crates or dict([RUST_PEERS[name]])
    lines = (f'{crate} = {{ version = "*", features = {json.dumps(features)} }}' for crate, features in crates.items())
    return build_cargo(name, "\n".join(lines)) if is_packaged(f"rust/{name}.rs", *crates) else None


def libraries():
    """The static library and the toolchain's, in the folders that RESIL_LIBRARIES names or where they are built."""
    given = os.environ.get("RESIL_LIBRARIES", f"{ROOT}/crates/resil_c/out:{toolchain()}/c")
    folders = [Path(folder) for folder in given.split(":")]
    names = ["libresil_c.a", "liblibc_c.a"]
    found = ((folder / name for folder in folders if (folder / name).exists()) for name in names)
    return given, [next(paths, None) for paths in found]


def build_bindings(name, *others, root=ROOT, source=None):
    """A program over the crate for rustc of a checkout, and over these others."""
    given, archives = libraries()
    ours = f'resil = {{ path = "{root}/bindings/rust" }}'
    return build_cargo(name, "\n".join([ours, *others]), source, RESIL_LIBRARIES=given) if all(archives) else None


def build_awaits():
    """The program of permits that tasks await, where tokio is there."""
    tokio = 'tokio = { version = "*", features = ["rt-multi-thread", "sync"] }'
    return build_bindings("awaits", tokio) if is_packaged("rust/awaits.rs", "tokio") else None


def build_sleepers():
    """The program of jobs that sleep, where tokio is there."""
    tokio = 'tokio = { version = "*", features = ["rt"] }'
    return build_bindings("sleepers", tokio) if is_packaged("rust/sleepers.rs", "tokio") else None


def build_tower(name):
    """A program over the crate for tower, where tower and tokio are there."""
    ours = f'resil-tower = {{ path = "{ROOT}/bindings/rust-tower" }}'
    others = 'tokio = { version = "*", features = ["sync"] }\ntower-layer = "*"\ntower-service = "*"'
    others += '\ntower = { version = "0.4", features = ["limit"] }'
    return build_bindings(name, ours, others) if is_packaged(f"rust/{name}.rs", "tower", "tokio") else None


def build_before(name):
    """A program over the crate for rustc of the checkout that RESIL_BENCH_BEFORE names."""
    return build_bindings(f"{name}_before", root=BEFORE, source=name) if BEFORE else None


def ours_before():
    """That checkout's measured crate, where it is built."""
    program = Path(BEFORE or "") / "crates/resil_bench/out/resil_bench"
    if BEFORE and not program.exists():
        say(f"there is no {program}: 'rt run --backend llvm' builds it")
    return [str(program)] if BEFORE and program.exists() else None


def build_peers(names):
    """The rows of the tables of these names; ours is the first."""
    OUT.mkdir(parents=True, exist_ok=True)
    if not all(libraries()[1]):
        say("c/library.c and the crate for rustc are left out: tools/check_bindings builds the static library")
    threadpool, thread_pool, bindings, before, observed = (
        build_rust_peer("threadpool_pool"),
        build_bindings("thread_pool"),
        build_bindings("bindings"),
        build_before("bindings"),
        build_bindings("observed"),
    )
    tables = {
        "calls": [
            Peer("`Pass::call`", bindings, "pass_calls"),
            Peer("`Bulkhead::call`", bindings, "bulkhead_calls"),
            Peer("`Bulkhead::call`, before", before, "bulkhead_calls"),
            Peer("observed by one that counts", observed, "counted"),
            Peer("by `Metrics` without times", observed, "untimed"),
            Peer("by `Metrics`", observed, "timed"),
        ],
        "enters": [
            Peer("`Bulkhead::enter`, and its drop", bindings, "bulkhead"),
            Peer("before", before, "bulkhead"),
        ],
        "chains": [
            Peer("`Decorators`", bindings, "chain"),
            Peer("the same by hand", bindings, "chain_by_hand"),
        ],
        "steady": [Peer("`ThreadPool` for rustc", thread_pool, "jobs")],
    }
    if "answers" in names:
        tables["answers"] = [
            Peer("`ThreadPool` for rustc", thread_pool, "answers"),
            Peer("before", build_before("thread_pool"), "answers"),
            *(Peer(label, build_rust_peer(name, crates), "answers") for name, (label, crates) in ANSWERS.items()),
            Peer("the JDK's, `submit` with its futures", (java := build_java()) and [*java, "Pools"], "answers"),
        ]
    if "tower" in names:
        tower = build_tower("tower_calls")
        tables["tower"] = [
            Peer("`BulkheadLayer`", tower, "layer"),
            Peer("the same over tokio's `try_acquire_owned`", tower, "semaphore"),
            Peer("no layer", tower, "bare"),
            Peer("`BulkheadLayer::waiting`", tower, "waiting"),
            Peer("`BulkheadLayer::queueing`", tower, "queueing"),
            Peer("tower's `ConcurrencyLimit`", tower, "limit"),
        ]
    if "sleepers" in names:
        sleepers = build_sleepers()
        tables["sleepers"] = [
            Peer("`ThreadPool` for rustc", sleepers, "ours"),
            Peer("tokio's `spawn_blocking`", sleepers, "tokio"),
        ]
    if "awaits" in names:
        awaits = build_awaits()
        tables["awaits"] = [
            Peer("`Bulkhead::acquire`", awaits, "ours"),
            Peer("tokio's `acquire_owned`", awaits, "tokio"),
        ]
    if "commands" in names:
        needed = ("csv", "toml", "itoa")
        by_hand = is_packaged("rust/replay_csv.rs", *needed) and build_cargo("replay_csv", "\n".join(f'{crate} = "*"' for crate in needed))
        tables["commands"] = [
            Peer("by hand", by_hand, "replay"),
            Peer("by hand", build_rust("simulate_by_hand"), "simulate"),
        ]
    if not set(names) <= set(tables):
        tables.update(build_proved(bindings, thread_pool, threadpool))
    return {name: [peer for peer in peers if peer.words] for name, peers in tables.items()}


def build_proved(bindings, thread_pool, threadpool):
    """The rows of the tables that begin with a program that is proved."""
    ours = build_ours()
    java = build_java()
    java_permits, java_pool, java_recorded = (
        java and [*java, *words] for words in (["Permits"], ["Pools"], ["Pools", "recorded"])
    )
    mutex, bare = build_rust("mutex_pool"), build_rust("bare_pool")
    rust = {name: build_rust_peer(name) for name in RUST_PEERS if name != "threadpool_pool"}
    archives = libraries()[1]
    library = build_c("library", archives) if all(archives) else None
    tables = {
        "permits": [
            Peer("ours", ours, "permits"),
            Peer("ours, by the library for C", library, "permits"),
            Peer("ours, `Pass` for rustc", bindings, "pass"),
            Peer("ours, `Bulkhead` for rustc", bindings, "bulkhead"),
            Peer("a bare loop, same compiler", ours, "bare"),
            Peer("a loop in C11", build_c("word"), "permits"),
            Peer("tokio's Semaphore", rust["tokio_permits"], "permits"),
            Peer("a number in parking_lot's Mutex", rust["parking_lot_permits"], "permits"),
            Peer("the JDK's Semaphore", java_permits, "permits"),
        ],
        "pool": [
            Peer("ours", ours, "pool", "all"),
            Peer("Mutex and Condvar in Rust", mutex, "pool", "all"),
            Peer("the JDK's, with a listener", java_recorded, "pool", "all"),
            Peer("the JDK's, bare", java_pool, "pool", "nothing"),
            Peer("crossbeam's channel", rust["crossbeam_pool"], "pool", "nothing"),
            Peer("the crate `threadpool`", threadpool, "pool", "nothing"),
        ],
        "rule": [
            Peer("`PoolRule` for rustc, in a Mutex", bindings, "rule", "nothing"),
            Peer("Mutex and Condvar in Rust", mutex, "rule", "all"),
            Peer("`Rule`", ours, "busy"),
            Peer("`PoolRule` for rustc", bindings, "busy"),
        ],
    }
    own = "ours, for one's own works"
    plain = "Mutex and Condvar in Rust, bare"
    own_before, thread_pool_before = ours_before(), build_before("thread_pool")
    tables["works"] = [
        Peer(own, ours, "works"),
        Peer(f"{own}, before", own_before, "works"),
        Peer(plain, bare, "works"),
        Peer("the JDK's, bare", java_pool, "works"),
    ]
    tables["asked"] = [
        Peer(own, ours, "answers"),
        Peer(f"{plain}, a channel for each", bare, "answers"),
        Peer("the JDK's, `submit` with its futures", java_pool, "answers"),
    ]
    tables["judged"] = [Peer(own, ours, "judged")]
    tables["own"] = [Peer(own, ours, "works", "nothing", "own"), Peer(plain, bare, "works", "nothing", "own")]
    recorded, for_rustc = "ours, which records all", "`ThreadPool` for rustc"
    tables["tail"] = [
        Peer(own, ours, "works", opens="own"),
        Peer(f"{own}, before", own_before, "works", opens="own"),
        Peer(recorded, ours, "pool"),
        Peer(f"{recorded}, before", own_before, "pool"),
        Peer(for_rustc, thread_pool, "answers"),
        Peer(f"{for_rustc}, before", thread_pool_before, "answers"),
        Peer("the JDK's, bare", java_pool, "pool"),
        Peer(plain, bare, "works", opens="own"),
    ]
    tables["memory"] = tables["pool"]
    tables["latency"] = tables["idle"] = [
        *tables["pool"][:4],
        Peer(for_rustc, thread_pool, "answers", "nothing"),
        *tables["own"],
    ]
    return tables
