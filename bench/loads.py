"""Load and what it costs: wrk, nginx with one file, pages of a size, and the processor time and memory of processes."""
import json
import os
import re
import socket
import subprocess
import tempfile
import time

TICK = os.sysconf("SC_CLK_TCK")
UNITS = {"us": 1e-3, "ms": 1.0, "s": 1e3, "m": 6e4}


def family(pid):
    """A process and all that stem from it."""
    children = subprocess.run(["pgrep", "-P", str(pid)], capture_output=True, text=True).stdout.split()
    return [pid] + [it for child in children for it in family(int(child))]


def processor_seconds(*pids):
    """User and system seconds of processes and of all that stem from them."""
    found = [0.0, 0.0]
    for it in [it for pid in pids for it in family(pid)]:
        try:
            with open(f"/proc/{it}/stat", encoding="utf-8") as file:
                fields = file.read().rsplit(") ", 1)[1].split()
        except FileNotFoundError:
            continue
        found[0] += int(fields[11]) / TICK
        found[1] += int(fields[12]) / TICK
    return found


def memory(pid, what="VmRSS"):
    """KiB of memory of a process: resident now, or `VmHWM`, the most so far."""
    with open(f"/proc/{pid}/status", encoding="utf-8") as file:
        return int(re.search(rf"{what}:\s+(\d+)", file.read())[1])


def wrk(url, connections, seconds, script=None, host=None, patience=10):
    """What wrk says: requests, seconds, requests a second, median and 99th percentile in milliseconds, errors by kind."""
    words = ["wrk", "-t", str(min(2, connections)), "-c", str(connections), "-d", f"{seconds}s", "--latency", "--timeout", f"{patience}s"]
    words += (["-s", script] if script else []) + (["-H", f"Host: {host}"] if host else []) + [url]
    said = subprocess.run(words, capture_output=True, text=True, check=True, timeout=seconds + 60).stdout
    count, took = re.search(r"(\d+) requests in ([\d.]+)(us|ms|s|m)", said).group(1, 2)
    refused = re.search(r"Non-2xx or 3xx responses: (\d+)", said)
    errors = re.search(r"Socket errors: connect (\d+), read (\d+), write (\d+), timeout (\d+)", said)

    def at(part):
        found = re.search(rf"\s{part}%\s+([\d.]+)(us|ms|s|m)", said)
        return float(found[1]) * UNITS[found[2]]

    return {
        "count": int(count), "seconds": float(took), "rate": float(re.search(r"Requests/sec:\s+([\d.]+)", said)[1]), "median": at(50), "p99": at(99),
        "errors": tuple(map(int, errors.groups())) if errors else (0, 0, 0, 0), "refused": int(refused[1]) if refused else 0,
    }  # fmt: skip


def settle(pids):
    """Waits until processes have done what was still asked of them, 20 seconds at most."""
    begun = processor_seconds(*pids)
    for _ in range(100):
        time.sleep(0.2)
        before, begun = begun, processor_seconds(*pids)
        if sum(begun) - sum(before) < 2 / TICK:
            return


def measured(pids, url, seconds, connections, least=20, **more):
    """What wrk says, and microseconds of processor time a request of these processes, after a second that isn't counted.

    Where fewer requests than the least were answered it is measured anew, for longer.
    """
    wrk(url, connections, 1, **more)
    settle(pids)
    before = processor_seconds(*pids)
    said = wrk(url, connections, seconds, **more)
    user, system = (after - begun for after, begun in zip(processor_seconds(*pids), before))
    if said["refused"]:
        raise SystemExit(f"{url}: {said['refused']} of {said['count']} replies were refusals")
    if said["count"] < least and seconds < 60:
        return measured(pids, url, 3 * seconds, connections, least, **more)
    return dict(said, user=1e6 * user / max(said["count"], 1), system=1e6 * system / max(said["count"], 1))


def both(it):
    """User and system time of a request."""
    return it["user"] + it["system"]


def free_port():
    with socket.socket() as it:
        it.bind(("127.0.0.1", 0))
        return it.getsockname()[1]


def wait_for(port, what):
    """Waits until a port takes connections."""
    for _ in range(600):
        try:
            socket.create_connection(("127.0.0.1", port), 1).close()
            return
        except OSError:
            time.sleep(0.05)
    raise SystemExit(f"{what} didn't start")


def started_nginx(room, http, workers):
    """An nginx with these words in its block `http`."""
    temporary = " ".join(f"{it}_temp_path {room}/{it};" for it in ("client_body", "proxy", "fastcgi", "uwsgi", "scgi"))
    with open(f"{room}/nginx.conf", "w", encoding="utf-8") as file:
        file.write(
            f"daemon off; worker_processes {workers}; pid {room}/nginx.pid; error_log {room}/error.log;{' user root;' if os.getuid() == 0 else ''}\n"
            f"events {{ worker_connections 1024; }}\nhttp {{ access_log off; {temporary}\n{http}\n}}\n"
        )
    return subprocess.Popen(["nginx", "-p", room, "-e", f"{room}/error.log", "-c", f"{room}/nginx.conf"], stderr=subprocess.DEVNULL)


def start_nginx(room, body, workers):
    """An nginx that gives one body as the file `/page`, and its port."""
    port = free_port()
    os.makedirs(f"{room}/html", exist_ok=True)
    with open(f"{room}/html/page", "wb") as file:
        file.write(body)
    nginx = started_nginx(
        room,
        f"keepalive_requests 1000; default_type text/html; etag off; open_file_cache max=10; root {room}/html;\nserver {{ listen 127.0.0.1:{port}; }}",
        workers,
    )
    wait_for(port, "nginx")
    return nginx, port


def written(rows):
    """Rows as lines of a file."""
    return "".join(json.dumps(row, separators=(",", ":"), sort_keys=True, ensure_ascii=False) + "\n" for row in rows)


def rows_with_texts(rows, path, sizes, count=1):
    """The rows of a file, and so many nodes with texts of these sizes, at this path and, from the second on, at it with a number behind."""
    lines = [json.loads(line) for line in rows.splitlines()]
    some = next(row for row in lines if row["cell"].startswith("node:") and row["status"])
    kind = next(row for row in lines if row["cell"].startswith("type:"))
    seq = next(row for row in lines if row["cell"] == "seq")
    names = [f"part_{at}" for at in range(len(sizes))]
    field = {"edit": None, "owner": False, "teaser": False, "view": None}
    lines.append(dict(kind, cell="type:large", label="Large", submitted=False, fields=[dict(field, name=it, label=it) for it in names]))
    text = "town and country " * (max(sizes) // 17 + 1)
    for at in range(count):
        more = {"uuid": f"large-{at}", "vid": 1, "title": "Large", "uid": 1, "type": "large", "path": path + (str(at) if at else "")}
        node = dict(some, cell=f"node:{seq['node']}", refs=[], grants=[], terms=[], promote=False, **more)
        node["fields"] = {name: text[:size] for name, size in zip(names, sizes)}
        lines.append(node)
        seq["node"] += 1
    return written(lines)


def rows_with_page(program, rows, path, size, count=1):
    """The same with texts that make each such page just so many bytes long, which a `replay` of the first one finds."""
    whole, rest = divmod(size - 10_000, 62_000)
    sizes = [62_000] * whole + [rest]
    with tempfile.NamedTemporaryFile("w", encoding="utf-8") as file:
        file.write(rows_with_texts(rows, path, sizes))
        file.flush()
        asked = f"GET {path} HTTP/1.1\r\nHost: a\r\n\r\n".encode()
        said = subprocess.run([program, "replay", file.name], input=asked, stdout=subprocess.PIPE, check=True).stdout
    sizes[-1] += size - int(re.search(rb"Content-Length: (\d+)", said)[1])
    return rows_with_texts(rows, path, sizes, count)
