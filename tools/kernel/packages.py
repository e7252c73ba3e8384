"""Debian's kernels, with their headers, modules and a static busybox, in a folder of one's own."""
import glob
import os
import re
import subprocess

DEBIAN = {"x86_64": "amd64", "aarch64": "arm64"}
SOURCES = """deb [{signed}] http://deb.debian.org/debian bookworm main
deb [{signed}] http://deb.debian.org/debian bookworm-backports main
deb [{signed}] http://deb.debian.org/debian-security bookworm-security main
"""
SIGNED = "signed-by=/usr/share/keyrings/debian-archive-keyring.gpg arch=amd64,arm64"
CONFIG = """Dir::Etc::sourcelist "{0}/sources.list";
Dir::Etc::sourceparts "-";
Dir::State "{0}/state";
Dir::State::status "/dev/null";
Dir::Cache "{0}/cache";
APT::Architecture "amd64";
APT::Architectures {{ "amd64"; "arm64"; }};
APT::Sandbox::User "root";
"""


class Packages:
    def __init__(self, folder):
        self.folder = os.path.realpath(folder)
        self.apt_folder = os.path.join(self.folder, "apt")
        self.root = os.path.join(self.folder, "root")
        self.environment = {**os.environ, "APT_CONFIG": os.path.join(self.apt_folder, "apt.conf")}

    def apt(self, *words, **how):
        done = subprocess.run(words, env=self.environment, stdout=subprocess.PIPE, stderr=subprocess.STDOUT,
                              encoding="utf-8", check=False, **how)
        if done.returncode:
            raise SystemExit(f"kernel-check: {' '.join(words)}\n{done.stdout}")
        return done.stdout

    def prepare(self):
        if os.path.exists(os.path.join(self.apt_folder, "ready")):
            return
        for name in "state/lists/partial", "cache/archives/partial":
            os.makedirs(os.path.join(self.apt_folder, name), exist_ok=True)
        for name, text in ("sources.list", SOURCES.format(signed=SIGNED)), ("apt.conf", CONFIG.format(self.apt_folder)):
            with open(os.path.join(self.apt_folder, name), "w", encoding="utf-8") as file:
                file.write(text)
        self.apt("apt-get", "update")
        with open(os.path.join(self.apt_folder, "ready"), "w", encoding="utf-8"):
            pass

    def newest(self, line):
        """The newest of Debian's kernels of this line, such as 6.1.0-57 of 6.1."""
        pattern = rf"^linux-headers-{re.escape(line)}\.[0-9.+a-z-]*common$"
        names = [it.split(" ")[0] for it in self.apt("apt-cache", "search", "--names-only", pattern).split("\n") if it]
        versions = [it[len("linux-headers-"):-len("-common")] for it in names if "-rt-" not in it]
        return max(versions, key=lambda it: [int(number) for number in re.findall(r"\d+", it)])

    def unpack(self, package, architecture):
        """Unpacks a package into the root, once."""
        mark = os.path.join(self.folder, "done", f"{package}.{architecture}")
        if os.path.exists(mark):
            return
        debs = os.path.join(self.folder, "debs")
        os.makedirs(debs, exist_ok=True)
        self.apt("apt-get", "download", f"{package}:{architecture}", cwd=debs)
        deb = max(glob.glob(os.path.join(glob.escape(debs), glob.escape(package) + "_*.deb")), key=os.path.getmtime)
        root = os.path.join(self.root, architecture) if package == "busybox-static" else self.root
        self.apt("dpkg-deb", "-x", deb, root)
        os.remove(deb)
        os.makedirs(os.path.dirname(mark), exist_ok=True)
        with open(mark, "w", encoding="utf-8"):
            pass

    def kernel(self, line, processor):
        """The version, and the folder of headers, of a kernel that is unpacked, with its image and modules."""
        self.prepare()
        version, debian = self.newest(line), DEBIAN[processor]
        kbuild = f"linux-kbuild-{line if line == '6.1' else version}"
        self.unpack(f"linux-image-{version}-{debian}", debian)
        self.unpack(f"linux-headers-{version}-{debian}", debian)
        self.unpack(f"linux-headers-{version}-common", "all")
        self.unpack(kbuild, "amd64")
        self.unpack("busybox-static", debian)
        headers = f"{self.root}/usr/src/linux-headers-{version}-{debian}"
        with open(f"{headers}/Makefile", "w", encoding="utf-8") as file:
            file.write(f"include {self.root}/usr/src/linux-headers-{version}-common/Makefile\n")
        return version, headers

    def image(self, version, processor):
        return f"{self.root}/boot/vmlinuz-{version}-{DEBIAN[processor]}"

    def busybox(self, processor):
        return f"{self.root}/{DEBIAN[processor]}/bin/busybox"

    def module(self, version, processor, name):
        """A module's bytes, unpacked."""
        [path] = glob.glob(f"{self.root}/lib/modules/{version}-{DEBIAN[processor]}/kernel/**/{name}.ko*", recursive=True)
        if path.endswith(".xz"):
            return subprocess.run(["xz", "-dc", path], stdout=subprocess.PIPE, check=True).stdout
        with open(path, "rb") as file:
            return file.read()
