"""Servers on loopback: how each is started and ended, and what it is asked for. What a server answers is the same in each run."""
import os
import pathlib
import socket
import subprocess
import sys
import time

NGINX = """daemon off; worker_processes 1; pid FILES/nginx.pid; error_log FILES/nginx.log; USER
events { worker_connections 256; }
http {
    access_log off; default_type text/plain; gzip on; gzip_types text/plain; client_body_temp_path FILES/body; proxy_temp_path FILES/proxy;
    fastcgi_temp_path FILES/fastcgi; uwsgi_temp_path FILES/uwsgi; scgi_temp_path FILES/scgi;
    server { listen 127.0.0.1:PORT; root FILES/served; autoindex on; }
}
"""


def quietly(words, **more):
    return subprocess.run([str(word) for word in words], check=True, capture_output=True, **more).stdout


def redis_commands(count):
    """Strings of many lengths, of which some are deleted, hashes and lists."""
    for n in range(count):
        yield f"SET string:{n * 7919 % 50021} {'x' * (n * 31 % 300 + 1)}\r\n"
        yield f"HSET hash:{n % 997} field:{n} {n * n}\r\n"
        yield f"RPUSH list:{n % 499} item:{n}\r\n"
        yield f"GET string:{n * 101 % 50021}\r\n"
        if n % 3 == 0:
            yield f"DEL string:{n * 13 % 50021}\r\n"


def start_redis(folder, port):
    return ["redis-server", "--port", port, "--bind", "127.0.0.1", "--save", "", "--enable-debug-command", "local", "--dir", folder]


def ask_redis(folder, port, amount):
    """Commands in one stream, and then as many requests of 50 clients. Returns the number of errors and of replies, and a digest of the data."""
    client = ["redis-cli", "-h", "127.0.0.1", "-p", port]
    said = quietly([*client, "--pipe"], input="".join(redis_commands(amount)).encode())
    digest = quietly([*client, "debug", "digest"])
    quietly(["redis-benchmark", "-h", "127.0.0.1", "-p", port, "-q", "-n", amount, "-r", 10_000, "-d", 100, "-t", "set,get,lpush,hset,spop"])
    return said + digest


def end_redis(folder, port):
    subprocess.run(["redis-cli", "-h", "127.0.0.1", "-p", str(port), "shutdown", "nosave"], capture_output=True)


def start_nginx(folder, port):
    served = folder / "served/files"
    served.mkdir(parents=True, exist_ok=True)
    for n in range(200):
        (served / f"file{n}").write_text(f"file {n}\n")
        os.utime(served / f"file{n}", (0, 0))  # the list has the times
    (folder / "served/lines").write_text("".join(f"line {n * 7919 % 10007}\n" for n in range(3000)))
    user = "user root;" if os.geteuid() == 0 else ""
    (folder / "nginx.conf").write_text(NGINX.replace("FILES", str(folder)).replace("PORT", str(port)).replace("USER", user))
    return ["nginx", "-e", folder / "nginx.log", "-c", folder / "nginx.conf"]


def ask_nginx(folder, port, amount):
    """A file as it is and compressed, and a list of files, each from 20 clients that keep their connections. Returns what one client gets."""
    answers = b""
    for path, share, header in [("lines", 1, "Accept: */*"), ("lines", 4, "Accept-Encoding: gzip"), ("files/", 2, "Accept: */*")]:
        address = f"http://127.0.0.1:{port}/{path}"
        answers += quietly(["curl", "-s", "-f", "-H", header, address])
        said = quietly(["ab", "-q", "-k", "-c", 20, "-n", max(amount // share, 20), "-H", header, address])
        if b"Failed requests:        0\n" not in said or b"Non-2xx" in said:
            sys.exit(f"nginx refuses requests: {said.decode()}")
    return answers


def end_nginx(folder, port):
    pid = folder / "nginx.pid"
    if pid.exists():
        os.kill(int(pid.read_text()), 3)  # it answers the requests that it has, and ends


# The name, the tools that it needs, how it is started, asked and ended, and how many requests it gets.
SERVERS = {
    "redis": (["redis-server", "redis-cli", "redis-benchmark"], start_redis, ask_redis, end_redis, 100_000),
    "nginx": (["nginx", "ab", "curl"], start_nginx, ask_nginx, end_nginx, 20_000),
}


def free_port():
    with socket.socket() as found:
        found.bind(("127.0.0.1", 0))
        return found.getsockname()[1]


def wait_for(port, server):
    for _ in range(500):
        with socket.socket() as tried:
            if not tried.connect_ex(("127.0.0.1", port)):
                return
        if server.poll() is not None:
            break
        time.sleep(0.02)
    sys.exit(f"a server doesn't answer: {server.args}")


def run_server(name, launcher, allocator, folder: pathlib.Path, amount):
    """The server's processor time in seconds, its peak resident memory in KB, and its answers. glibc's malloc is named: redis links another one."""
    _, start, ask, end, _ = SERVERS[name]
    folder.mkdir(exist_ok=True)
    port = free_port()
    words = [launcher, allocator.preload or "libc.so.6", *start(folder, port)]
    with subprocess.Popen([str(word) for word in words], stdout=subprocess.PIPE, stderr=subprocess.DEVNULL) as server:
        wait_for(port, server)
        try:
            answers = ask(folder, port, amount)
        finally:
            end(folder, port)
        said = server.communicate(timeout=60)[0]
    if server.returncode:
        sys.exit(f"{name} ends with the status {server.returncode}")
    used, peak = map(int, said.rstrip().rsplit(b"\n", 1)[1].split())
    return used / 1e6, peak, answers
