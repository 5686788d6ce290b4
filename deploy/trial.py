"""What the trials of proxy, dashboard and web actions share: services, nginx in front of them, a browser, and what is checked."""
import atexit
import importlib.util
import os
import random
import re
import shutil
import signal
import socket
import subprocess
import sys
import tempfile
import time

HERE = os.path.dirname(os.path.abspath(__file__))
TOP = os.path.dirname(HERE)


def need(packages, modules=()):
    """Installs Debian's packages of the commands and modules that are missing, or ends and says which they are. `packages` are pairs of
    a command and its package, `modules` of a module and its package."""
    missing = [package for command, package in packages if not shutil.which(command)]
    missing += [package for module, package in modules if importlib.util.find_spec(module) is None]
    if not missing:
        return
    if os.getuid() != 0:
        sys.exit("install these packages of Debian first: " + " ".join(missing))
    install = ["apt-get", "install", "-y", "-q", "--no-install-recommends", *missing]
    if subprocess.run(install, stdout=subprocess.DEVNULL, stderr=subprocess.DEVNULL).returncode != 0:
        subprocess.run(["apt-get", "update", "-q"], stdout=subprocess.DEVNULL, check=True)
        subprocess.run(install, stdout=subprocess.DEVNULL, check=True)
    importlib.invalidate_caches()


def program():
    """The service's program: the first word, else $OW_WHISK, else where `rt run` puts it."""
    path = next(iter(sys.argv[1:]), None) or os.environ.get("OW_WHISK") or os.path.join(TOP, "crates/ow_whisk/out/ow_whisk")
    if not os.access(path, os.X_OK):
        sys.exit("no program at %s: build it, or give its path as the first word or in OW_WHISK" % path)
    return os.path.abspath(path)


def folder():
    """A folder that is gone at the end, which nginx's workers may enter."""
    path = tempfile.mkdtemp(prefix="ow_whisk.")
    os.chmod(path, 0o755)
    atexit.register(shutil.rmtree, path, ignore_errors=True)
    return path


def free_port(given=set()):
    """A port that nobody listens on, below those that the system takes for connections, and each once."""
    while True:
        port = random.randint(20_000, 32_000)
        try:
            socket.create_server(("127.0.0.1", port)).close()
        except OSError:
            continue
        if port not in given:
            given.add(port)
            return port


def await_port(port, process):
    for _ in range(300):
        if process.poll() is not None:
            sys.exit("%s ended with status %d" % (process.args[0], process.returncode))
        try:
            socket.create_connection(("127.0.0.1", port), timeout=5).close()
            return
        except OSError:
            time.sleep(0.1)
    sys.exit("nothing listens on port %d" % port)


# Debian's packages of the browser: of the commands, and of the modules.
BROWSER = [("chromium", "chromium"), ("chromedriver", "chromium-driver")], [("selenium", "python3-selenium")]


def browser():
    """A headless Chromium, which takes every certificate and keeps what its console says."""
    from selenium import webdriver
    from selenium.webdriver.chrome.options import Options
    from selenium.webdriver.chrome.service import Service

    options = Options()
    options.binary_location = shutil.which("chromium")
    options.accept_insecure_certs = True
    words = ["--headless=new", "--disable-gpu", "--hide-scrollbars", "--lang=en-GB"] + (["--no-sandbox"] if os.getuid() == 0 else [])
    for word in words:
        options.add_argument(word)
    options.set_capability("goog:loggingPrefs", {"browser": "ALL"})
    return webdriver.Chrome(service=Service(shutil.which("chromedriver")), options=options)


def begin(words, **more):
    """A process that is ended with this one."""
    process = subprocess.Popen(words, **more)
    atexit.register(end, process)
    return process


def end(process):
    if process.poll() is None:
        process.send_signal(signal.SIGTERM)
        process.wait(timeout=30)


class Service:
    """A service over the rows of an office table."""

    def __init__(self, rows, words=(), port=None):
        self.port = port or free_port()
        self.table = os.path.join(folder(), "office.csv")
        with open(self.table, "w", encoding="utf-8") as file:
            file.write("".join(row + "\n" for row in rows))
        self.words = [program(), "serve", "--port", str(self.port), "--table", self.table, *words]
        self.begin()

    def begin(self):
        self.process = begin(self.words)
        await_port(self.port, self.process)

    def end(self):
        end(self.process)

    def memory(self):
        """The bytes of memory that it has."""
        with open("/proc/%d/status" % self.process.pid, encoding="ascii") as file:
            return 1024 * int(re.search(r"VmRSS:\s+(\d+) kB", file.read())[1])


class Proxy:
    """nginx with deploy/nginx.conf in front of services. Ports and folders are others than in the file, nothing else is."""

    def __init__(self, services, keys_words=()):
        self.folder, self.port, self.plain_port = folder(), free_port(), free_port()
        self.address = "https://localhost:%d" % self.port
        self.certificate, self.log = self.at("cert.pem"), self.at("access.log")
        make_certificate(self.certificate, self.at("cert.key"))
        shutil.copy(os.path.join(TOP, "client/dashboard.html"), self.folder)
        self.services = ["%d=%s" % (service.port, service.table) for service in services]
        self.write_keys(keys_words)
        with open(self.at("nginx.conf"), "w", encoding="utf-8") as file:
            file.write(self.config())
        self.words = ["nginx", "-e", self.at("error.log"), "-c", self.at("nginx.conf"), "-g", "daemon off;"]
        self.process = begin(self.words)
        await_port(self.port, self.process)

    def at(self, name):
        return os.path.join(self.folder, name)

    def write_keys(self, words=(), services=None):
        subprocess.run(
            [os.path.join(HERE, "nginx_keys"), self.at("services.conf"), *words, *(services or self.services)],
            check=True,
            stdout=subprocess.DEVNULL,
        )

    def config(self):
        with open(os.path.join(HERE, "nginx.conf"), encoding="utf-8") as file:
            text = file.read()
        changes = [
            ("/etc/ow_whisk/", self.folder + "/", 3),
            ("/usr/share/ow_whisk", self.folder, 1),
            ("/var/log/nginx/", self.folder + "/", 2),
            ("/run/nginx.pid", self.at("nginx.pid"), 1),
            ("    listen [::]:443 ssl;\n", "", 1),
            ("    listen [::]:80;\n", "", 1),
            ("listen 443 ssl", "listen %d ssl" % self.port, 1),
            ("listen 80;", "listen %d;" % self.plain_port, 1),
            ("http {\n", "http {\n" + self.temporary(), 1),
        ]
        if os.getuid() != 0:
            changes.append(("user www-data;\n", "", 1))
        # What comments say of these paths is no setting.
        text = "".join(line for line in text.splitlines(True) if not line.lstrip().startswith("#"))
        for old, new, count in changes:
            if text.count(old) != count:
                sys.exit("deploy/nginx.conf has %r %d times, not %d" % (old, text.count(old), count))
            text = text.replace(old, new)
        return text

    def temporary(self):
        kinds = ["client_body", "proxy", "fastcgi", "uwsgi", "scgi"]
        return "".join("    %s_temp_path %s;\n" % (kind, self.at("temporary_" + kind)) for kind in kinds)

    def reload(self):
        """Lets nginx read its files again."""
        subprocess.run([*self.words[:-2], "-t", "-q"], check=True)
        self.process.send_signal(signal.SIGHUP)
        time.sleep(1)

    def end(self):
        end(self.process)


def make_certificate(path, key):
    name = ["-subj", "/CN=localhost", "-addext", "subjectAltName=DNS:localhost,IP:127.0.0.1"]
    kind = ["-newkey", "ec", "-pkeyopt", "ec_paramgen_curve:prime256v1", "-nodes", "-days", "2"]
    subprocess.run(["openssl", "req", "-x509", *kind, *name, "-out", path, "-keyout", key], check=True, stderr=subprocess.DEVNULL)


class Checks:
    """What was checked, and whether all of it was as it must be."""

    def __init__(self):
        self.count, self.wrong = 0, 0

    def that(self, what, holds, found=None):
        self.count += 1
        self.wrong += not holds
        print("%s %s%s" % ("ok   " if holds else "WRONG", what, "" if found is None else ": %s" % (found,)), flush=True)

    def equal(self, what, found, wanted):
        self.that(what, found == wanted, found if found == wanted else "%r in place of %r" % (found, wanted))

    def finish(self):
        print("%d checks, %d wrong" % (self.count, self.wrong))
        sys.exit(1 if self.wrong else 0)
