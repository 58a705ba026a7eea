"""What is put beside the modules of the Python package in a wheel, for pyproject.toml: the forms of the words, which are
tools/lib/forms.tsv, and what answers. That is the module for node, bin/hithwelor, or, where HITHWELOR_WHEEL is `library`, the
shared library, embed/out/libhithwelor.so or the file that HITHWELOR_LIBRARY names.

A wheel with the module is for any machine. One with the library is for the systems whose C library is no older than the
youngest of the names that the library takes of it; or for the platform that HITHWELOR_PLATFORM names.
"""
import os
import re
import sysconfig

from hatchling.builders.hooks.plugin.interface import BuildHookInterface


def platform_of(library):
    """The platform of a shared library, by the versions of the C library that it names."""
    here = sysconfig.get_platform().replace("-", "_").replace(".", "_")
    with open(library, "rb") as file:
        wanted = [(int(major), int(minor)) for major, minor in re.findall(rb"\0GLIBC_(\d+)\.(\d+)", file.read())]
    if not here.startswith("linux_") or not wanted:
        return here
    return "manylinux_{}_{}_".format(*max(wanted)) + here[len("linux_") :]


class Beside(BuildHookInterface):
    def initialize(self, version, build_data):
        what = os.environ.get("HITHWELOR_WHEEL", "module")
        if what == "module":
            path, name = os.path.join(self.root, "bin", "hithwelor"), "hithwelor.cjs"
        elif what == "library":
            named = os.environ.get("HITHWELOR_LIBRARY")
            path, name = named or os.path.join(self.root, "embed", "out", "libhithwelor.so"), "libhithwelor.so"
        else:
            raise ValueError(f"HITHWELOR_WHEEL is module or library, and not {what}")
        for source, target in ((path, name), (os.path.join(self.root, "tools", "lib", "forms.tsv"), "forms.tsv")):
            if not os.path.isfile(source):
                raise FileNotFoundError(
                    f"{source} is missing: run embed/build in a clone first, or name the library by HITHWELOR_LIBRARY"
                )
            build_data["force_include"][source] = f"hithwelor/{target}"
        if what == "library":
            build_data["tag"] = "py3-none-" + (os.environ.get("HITHWELOR_PLATFORM") or platform_of(path))
            build_data["pure_python"] = False

    def finalize(self, version, build_data, artifact_path):
        """Lets everybody read the wheel: hatchling writes it as a file of its user alone."""
        os.chmod(artifact_path, 0o644)
