"""The Debian package that scripts/deb makes: its contents, and installing, running and removing it."""
import gzip
import os
import re
import shutil

from lib.base import PROGRAM, Case, copy_for_scripts, environment, execute, files, output, read, shared, table, write

MAINTAINER = "Jo Doe <jo@example.org>"
FILES = ["usr/bin/tfmset", "usr/bin/tfmset-boxes", "usr/bin/tfmset-letters",
         "usr/share/bash-completion/completions/tfmset", "usr/share/doc/tfmset/changelog.gz", "usr/share/doc/tfmset/copyright",
         "usr/share/fish/vendor_completions.d/tfmset.fish", "usr/share/man/man1/tfmset-boxes.1.gz",
         "usr/share/man/man1/tfmset-letters.1.gz", "usr/share/man/man1/tfmset.1.gz", "usr/share/zsh/vendor-completions/_tfmset"]
MACHINES = {3: "i386", 62: "amd64", 183: "arm64", 243: "riscv64"}  # numbers of the ELF format, and Debian's names


def make_package(top):
    """The package and its contents. As root, the files that scripts/install writes belong to another user."""
    os.mkdir(top)
    copy, env = shared("deb copy", copy_for_scripts), environment(MAINTAINER=MAINTAINER, SOURCE_DATE_EPOCH="1796083200")
    if os.geteuid() == 0:
        install = f'#!/bin/sh\nexec "{shutil.which("install")}" -o 12345 -g 12345 "$@"\n'
        os.chmod(write(top + "/bin/install", install), 0o755)
        env["PATH"] = top + "/bin:" + env["PATH"]
    package = output(copy + "/scripts/deb", top, env=env, cwd=copy, umask=0o077, timeout=600).strip()
    os.rename(package, top + "/package.deb")
    output("dpkg-deb", "-x", top + "/package.deb", top + "/files")
    output("dpkg-deb", "-e", top + "/package.deb", top + "/files/DEBIAN")


def without_format(text):
    """The lines of a licence without indentation and empty lines."""
    return [line.strip() for line in text.splitlines() if line.strip() not in ("", ".")]


class Package(Case):
    """The package"""

    def setUp(self):
        super().setUp()
        self.need("dpkg-deb")
        self.top = shared("deb", make_package)
        self.package = self.top + "/package.deb"

    def test_without_maintainer_it_fails(self):
        copy = shared("deb copy", copy_for_scripts)
        self.same("status", 2, execute(copy + "/scripts/deb", self.room, env=environment(), cwd=copy)[0])

    def test_after_a_failed_build(self):
        """No package is made if the build of the program fails."""
        copy = os.path.join(self.room, "copy")
        copy_for_scripts(copy, 70)
        seen = execute(copy + "/scripts/deb", self.room, env=environment(MAINTAINER=MAINTAINER), cwd=copy)
        self.same("result", (70, "", ["copy"]), (*seen[:2], os.listdir(self.room)))

    def test_fields(self):
        """Name, version, architecture (that of the program), section and maintainer."""
        version, machine = output(PROGRAM, "--version").split()[1], read(PROGRAM, "rb")[18]
        form = "--showformat=${Package} ${Version} ${Architecture} ${Section} ${Priority} ${Maintainer}"
        wanted = f"tfmset {version} {MACHINES[machine]} tex optional {MAINTAINER}"
        self.same("fields", wanted, output("dpkg-deb", form, "-W", self.package))

    def test_needed_packages(self):
        """The C library, in the newest version that a symbol requires, and Python for the scripts."""
        found = re.findall(rb"GLIBC_([0-9.]*[0-9])", read(PROGRAM, "rb"))
        newest = max(found, key=lambda version: [int(part) for part in version.split(b".")]).decode()
        self.same("depends", f"libc6 (>= {newest}), python3 (>= 3.8)", output("dpkg-deb", "--showformat=${Depends}", "-W", self.package))

    def test_files_and_checksums(self):
        top = self.top + "/files"
        self.same("files", FILES, files(top, ("DEBIAN",)))
        listed = [line.split("  ", 1)[1] for line in read(top + "/DEBIAN/md5sums").splitlines()]
        self.same("files with checksums", sorted(FILES), sorted(listed))
        self.same("checksums", (0, "", ""), execute("md5sum", "--quiet", "-c", "DEBIAN/md5sums", cwd=top))
        for name, (source, _) in table("packaging")["installed"].items():
            name = f"{top}/usr/" + name.replace("site-functions", "vendor-completions")
            seen = gzip.decompress(read(name + ".gz", "rb")) if "/man/" in name else read(name, "rb")
            self.same(f"{name} is its source", True, seen == read(source, "rb") or "crates" in source)
        self.compare_readers(top + "/usr/bin")

    def test_modes_and_owners(self):
        entries = [line.split() for line in output("dpkg-deb", "-c", self.package).splitlines()]
        wanted = {name: "-rwxr-xr-x" if "/bin/" in name else "-rw-r--r--" for name in FILES}
        self.same("files", wanted, {entry[-1][2:]: entry[0] for entry in entries if entry[-1][-1] != "/"})
        self.same("directories", {"drwxr-xr-x"}, {entry[0] for entry in entries if entry[-1][-1] == "/"})
        self.same("owners", {"root/root"}, {entry[1] for entry in entries})

    def test_licences(self):
        text = read(self.top + "/files/usr/share/doc/tfmset/copyright")
        head = re.search(r"^Files: \*\n(.*?)\n\n", text, re.M | re.S).group(1)
        self.same("licence", "Copyright: 2026 the Tarovinj authors\nLicense: Expat or Apache-2.0", head)
        licence = re.search(r"^License: Expat\n(.*?)\n\n", text, re.M | re.S).group(1)
        self.same("Expat", without_format(read("LICENSE-MIT")), without_format(licence))
        self.same("Apache's is Debian's", True, text.rstrip().endswith(" /usr/share/common-licenses/Apache-2.0."))

    def test_change_log(self):
        """The change log has the version, the maintainer and the date."""
        text = gzip.decompress(read(self.top + "/files/usr/share/doc/tfmset/changelog.gz", "rb")).decode()
        self.same("head", f"tfmset ({output(PROGRAM, '--version').split()[1]}) unstable; urgency=medium", text.split("\n")[0])
        self.same("end", f" -- {MAINTAINER}  Tue, 01 Dec 2026 00:00:00 +0000", text.rstrip().split("\n")[-1])

    def test_program_without_symbols(self):
        """The program has no symbols, and the same code as the one that was built."""
        self.need("readelf")
        def section(path):
            return re.findall(r"  (0x\w+ .*)", output("readelf", "-x", ".text", path, timeout=300))
        program = self.top + "/files/usr/bin/tfmset"
        self.same("sections", False, ".symtab" in output("readelf", "-SW", program))
        self.same("the same code", True, section(program) == section(PROGRAM) != [])

    def test_lintian(self):
        """lintian, which checks packages by Debian's rules, reports no error and no warning."""
        self.need("lintian")
        self.same("result", (0, ""), execute("lintian", "--no-cfg", "--fail-on", "error,warning", self.package, timeout=600)[:2])

    def test_installing_running_and_removing(self):
        if os.geteuid() != 0:
            self.lack("root")
        if execute("dpkg", "-s", "tfmset")[0] == 0:
            self.skipTest("a package tfmset is installed")
        self.addCleanup(execute, "dpkg", "-P", "tfmset")
        self.same("it installs", 0, execute("dpkg", "-i", self.package, timeout=600)[0])
        self.compare_readers("/usr/bin")
        self.same("it is removed", 0, execute("dpkg", "-P", "tfmset", timeout=600)[0])
        self.same("no file remains", [], [name for name in FILES if os.path.exists("/" + name)])
