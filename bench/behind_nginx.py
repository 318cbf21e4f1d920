"""`amring serve` behind nginx, with the block of docs/OPERATING.md, for bench/page."""
import base64
import json
import os
import re
import shutil
import socket
import subprocess
import sys
import time
import urllib.error
import urllib.request

from served import KEEPS_MEMORY, ROOT, free_port

TENANT = "team-a"
USER = "ann"
PASSWORD = "secret"
SIGNED_IN = {"Authorization": "Basic " + base64.b64encode(f"{USER}:{PASSWORD}".encode()).decode()}


def wait_for(port):
    for _ in range(200):
        try:
            socket.create_connection(("127.0.0.1", port), timeout=1).close()
            return
        except OSError:
            time.sleep(0.05)
    sys.exit(f"bench/page: nothing answers on port {port}")


class Site:
    """`amring serve` behind nginx, in a folder of their own."""

    def __init__(self, program, folder):
        self.program = program
        self.folder = folder
        self.port = free_port()
        self.web_port = free_port()
        self.origin = f"http://127.0.0.1:{self.web_port}"
        self.configure_nginx()
        self.start_amring()
        self.start_nginx()

    def configure_nginx(self):
        with open(os.path.join(ROOT, "docs", "OPERATING.md")) as file:
            block = re.search(r"^```nginx\n(.*?)^```", file.read(), re.M | re.S)[1]
        block = block.replace("127.0.0.1:9093", f"127.0.0.1:{self.port}").replace(
            "/opt/amring/web", os.path.join(ROOT, "web")
        )
        block = block.replace("/etc/nginx/team-a", os.path.join(self.folder, "users"))
        with open(os.path.join(self.folder, "users"), "w") as file:
            file.write(f"{USER}:{{PLAIN}}{PASSWORD}\n")
        folders = "".join(
            f"{kind}_temp_path {self.folder}/{kind};" for kind in ("client_body", "proxy", "fastcgi", "uwsgi", "scgi")
        )
        user = "user root;" if os.getuid() == 0 else ""
        with open(os.path.join(self.folder, "nginx.conf"), "w") as file:
            file.write(f"{user} daemon off; pid {self.folder}/pid; error_log {self.folder}/errors; events {{ }}\n")
            file.write(f"http {{ include /etc/nginx/mime.types; access_log off; {folders}\n")
            file.write(f"server {{ listen 127.0.0.1:{self.web_port};\n{block} }} }}\n")

    def start_amring(self):
        command = [self.program, "serve", "--port", str(self.port)]
        self.amring = subprocess.Popen(command, stderr=subprocess.DEVNULL, env={**os.environ, **KEEPS_MEMORY})
        wait_for(self.port)

    def start_nginx(self):
        program = shutil.which("nginx", path=os.environ["PATH"] + ":/usr/sbin")
        self.nginx = subprocess.Popen(
            [program, "-c", os.path.join(self.folder, "nginx.conf")], stderr=subprocess.DEVNULL
        )
        wait_for(self.web_port)

    def address(self, hash=""):
        return f"{self.origin.replace('//', f'//{USER}:{PASSWORD}@')}/{TENANT}/on-call/{hash}"

    def ask(self, method, path, body=None):
        """What amring itself, not nginx, replies: status and body."""
        data = None if body is None else json.dumps(body).encode()
        request = urllib.request.Request(
            f"http://127.0.0.1:{self.port}{path}", data, {"X-Scope-OrgID": TENANT}, method=method
        )
        try:
            with urllib.request.urlopen(request, timeout=300) as reply:
                return reply.status, json.loads(reply.read() or "null")
        except urllib.error.HTTPError as refused:
            return refused.code, json.loads(refused.read())

    def ask_nginx(self, path, headers):
        """The status that nginx replies to a GET."""
        request = urllib.request.Request(f"{self.origin}/{TENANT}/{path}", headers=headers)
        try:
            with urllib.request.urlopen(request, timeout=30) as reply:
                return reply.status
        except urllib.error.HTTPError as refused:
            return refused.code

    def stop(self, *processes):
        for process in processes or (self.amring, self.nginx):
            process.terminate()
            process.wait()
